print("a\"b");
debug("a\"b");
print(["x", 'y', 1, ()]);
debug(#{ a: "b" });
print(());
debug(());
print(blob(3, 255));
print("say ""hi""");
