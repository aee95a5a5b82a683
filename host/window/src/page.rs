//! The files of the page.

/// A file of the page.
pub struct File {
    pub path: &'static str,
    pub kind: &'static str,
    pub text: &'static str,
}

const SCRIPT: &str = "text/javascript; charset=utf-8";

/// All files, by the path that a browser asks for.
pub const FILES: [File; 11] = [
    File { path: "/", kind: "text/html; charset=utf-8", text: include_str!("../page/index.html") },
    File { path: "/style.css", kind: "text/css; charset=utf-8", text: include_str!("../page/style.css") },
    File { path: "/app.js", kind: SCRIPT, text: include_str!("../page/app.js") },
    File { path: "/commands.js", kind: SCRIPT, text: include_str!("../page/commands.js") },
    File { path: "/editor.js", kind: SCRIPT, text: include_str!("../page/editor.js") },
    File { path: "/examples.js", kind: SCRIPT, text: include_str!("../page/examples.js") },
    File { path: "/patch.js", kind: SCRIPT, text: include_str!("../page/patch.js") },
    File { path: "/places.js", kind: SCRIPT, text: include_str!("../page/places.js") },
    File { path: "/texts.js", kind: SCRIPT, text: include_str!("../page/texts.js") },
    File { path: "/values.js", kind: SCRIPT, text: include_str!("../page/values.js") },
    File { path: "/world.js", kind: SCRIPT, text: include_str!("../page/world.js") },
];

#[cfg(test)]
mod tests {
    use super::FILES;

    #[test]
    fn the_page_is_small_and_whole() {
        let bytes: usize = FILES.iter().map(|file| file.text.len()).sum();
        assert!(bytes <= 100_000, "{bytes}");
        for file in FILES {
            assert!(!file.text.contains("innerHTML") && !file.text.contains("//cdn"), "{}", file.path);
        }
    }
}
