try { 1 / 0 } catch (e) { print(e.message + " " + e.line + ":" + e.position); }
try { throw #{ code: 5 }; } catch (e) { print(e.code); }
try { nothing } catch { print("caught"); }
try { if 1 { } } catch (e) { print(e.position); }
try { foo(1) } catch (e) { print(e.message); }
try { try { throw 1 } catch (e) { throw e + 1 } } catch (e) { print(e); }
let x = 9223372036854775807;
x + 1;
