//! A full standard output, such as a device that accepts nothing: a run ends with an error, without
//! a panic. It is a program of its own, since the test harness writes there too.
use rhai_world::Engine;

const CHILD: &str = "RHAI_WORLD_CHILD";
const SCRIPT: &str = "let x = 1;\nprint(x); loop { x += 1; if x == 2_000_000 { break; } }";

fn main() {
    if std::env::var_os(CHILD).is_some() {
        let error = Engine::new().run(SCRIPT).unwrap_err();
        eprintln!("ended: {error:?}");
    } else if cfg!(target_os = "linux") {
        let full = std::fs::File::options().write(true).open("/dev/full").unwrap();
        let mut child = std::process::Command::new(std::env::current_exe().unwrap());
        let done = child.env(CHILD, "1").stdout(full).output().unwrap();
        let told = String::from_utf8_lossy(&done.stderr);
        assert!(done.status.success() && told.contains("ended: NotPrinted { why: "), "{told}");
    }
}
