let s = "0123456789";
try { loop { s += s; } } catch { print("never"); }
