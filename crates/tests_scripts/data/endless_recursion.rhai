fn again(n) { again(n + 1) }
try { again(0); } catch { print("never"); }
