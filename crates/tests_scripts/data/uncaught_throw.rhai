print("before");
  throw "it";
