//! The port: a program that answers batches of recipes.

use crate::recipe::Recipe;
use std::io::{Read, Result, Write};
use std::process::{Child, ChildStdin, ChildStdout, Command, Stdio};

pub struct Port {
    program: String,
    child: Child,
    to: Option<ChildStdin>,
    from: ChildStdout,
}

fn start(program: &str) -> (Child, Option<ChildStdin>, ChildStdout) {
    let mut child = Command::new(program)
        .stdin(Stdio::piped())
        .stdout(Stdio::piped())
        .stderr(Stdio::null())
        .spawn()
        .expect("the port's program");
    let (to, from) = (child.stdin.take(), child.stdout.take().expect("its output"));
    (child, to, from)
}

impl Port {
    pub fn new(program: &str) -> Self {
        let (child, to, from) = start(program);
        Self { program: program.into(), child, to, from }
    }

    fn try_ask(&mut self, recipes: &[Recipe]) -> Result<Vec<String>> {
        let mut batch = Vec::new();
        for r in recipes {
            let bytes = r.bytes();
            batch.extend((bytes.len() as u32).to_le_bytes());
            batch.extend(bytes);
        }
        let to = self.to.as_mut().expect("its input");
        to.write_all(&(batch.len() as u32).to_le_bytes())?;
        to.write_all(&batch)?;
        to.flush()?;
        let mut size = [0; 4];
        self.from.read_exact(&mut size)?;
        let mut all = vec![0; u32::from_le_bytes(size) as usize];
        self.from.read_exact(&mut all)?;
        let mut out = Vec::new();
        let mut at = 0;
        while at < all.len() {
            let n = u32::from_le_bytes(all[at..at + 4].try_into().unwrap()) as usize;
            out.push(String::from_utf8_lossy(&all[at + 4..at + 4 + n]).into_owned());
            at += 4 + n;
        }
        Ok(out)
    }

    /// The answers; `DIED` for a recipe that stops the program.
    pub fn ask(&mut self, recipes: &[Recipe]) -> Vec<String> {
        match self.try_ask(recipes) {
            Ok(out) if out.len() == recipes.len() => return out,
            _ => (),
        }
        let _ = self.child.kill();
        let _ = self.child.wait();
        (self.child, self.to, self.from) = start(&self.program);
        if let [_] = recipes {
            return vec!["DIED\n".into()];
        }
        let (a, b) = recipes.split_at(recipes.len() / 2);
        let mut out = self.ask(a);
        out.extend(self.ask(b));
        out
    }
}

impl Port {
    /// Ends the input, and so the program.
    ///
    /// # Errors
    ///
    /// The status, if it isn't 0.
    pub fn end(mut self) -> std::result::Result<(), String> {
        drop(self.to.take());
        let status = self.child.wait().expect("its end");
        if status.success() {
            Ok(())
        } else {
            Err(status.to_string())
        }
    }
}

impl Drop for Port {
    fn drop(&mut self) {
        let _ = self.child.kill();
        let _ = self.child.wait();
    }
}
