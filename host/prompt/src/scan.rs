//! A scan of a script's brackets, texts and comments.

/// A function at the top level of a text.
#[derive(Clone, Debug, PartialEq, Eq)]
pub struct Function {
    pub name: String,
    pub parameters: usize,
    /// Its text, from `fn` to the end of its block.
    pub text: String,
}

impl Function {
    /// Whether a script can't contain both.
    pub fn is_like(&self, other: &Function) -> bool {
        self.name == other.name && self.parameters == other.parameters
    }
}

/// A word, or any other mark.
#[derive(Clone, Copy, Debug, PartialEq, Eq)]
enum Token<'a> {
    Word(&'a str),
    Mark(char),
    /// This many nested comments without an end.
    OpenComment(usize),
}

/// The words and marks of a text, each with its position. Texts, characters and comments are left
/// out.
struct Tokens<'a> {
    text: &'a str,
    at: usize,
}

impl<'a> Tokens<'a> {
    fn of(text: &'a str) -> Tokens<'a> {
        Tokens { text, at: 0 }
    }

    fn rest(&self) -> &'a str {
        &self.text[self.at..]
    }

    /// Skips the text or character that begins here. It ends with its line, if not before.
    fn pass_quoted(&mut self, quote: char) {
        let mut escaped = false;
        for (i, character) in self.rest().char_indices().skip(1) {
            if character == '\n' || character == quote && !escaped {
                self.at += i + character.len_utf8();
                return;
            }
            escaped = character == '\\' && !escaped;
        }
        self.at = self.text.len();
    }

    /// Skips the comment that begins here, and returns how many nested ones don't end.
    fn pass_comment(&mut self) -> usize {
        let mut depth = 0;
        while let Some(character) = self.rest().chars().next() {
            if self.rest().starts_with("/*") {
                depth += 1;
                self.at += 2;
            } else if self.rest().starts_with("*/") {
                depth -= 1;
                self.at += 2;
                if depth == 0 {
                    return 0;
                }
            } else {
                self.at += character.len_utf8();
            }
        }
        depth
    }

    fn word(&mut self) -> Token<'a> {
        let rest = self.rest();
        let end = rest.find(|character: char| !is_of_word(character)).unwrap_or(rest.len());
        self.at += end;
        Token::Word(&rest[..end])
    }
}

fn is_of_word(character: char) -> bool {
    character.is_ascii_alphanumeric() || character == '_'
}

impl<'a> Iterator for Tokens<'a> {
    type Item = (usize, Token<'a>);

    fn next(&mut self) -> Option<(usize, Token<'a>)> {
        loop {
            let character = self.rest().chars().next()?;
            let begin = self.at;
            if self.rest().starts_with("//") {
                self.at += self.rest().find('\n').unwrap_or(self.rest().len());
            } else if self.rest().starts_with("/*") {
                let open = self.pass_comment();
                if open > 0 {
                    return Some((begin, Token::OpenComment(open)));
                }
            } else if character == '"' || character == '\'' {
                self.pass_quoted(character);
            } else if is_of_word(character) {
                return Some((begin, self.word()));
            } else {
                self.at += character.len_utf8();
                if !character.is_whitespace() {
                    return Some((begin, Token::Mark(character)));
                }
            }
        }
    }
}

/// Returns how many brackets are open after this token.
fn depth_after(depth: usize, token: Token<'_>) -> usize {
    match token {
        Token::Mark('(' | '[' | '{') => depth + 1,
        Token::Mark(')' | ']' | '}') => depth.saturating_sub(1),
        Token::Mark(_) | Token::Word(_) | Token::OpenComment(_) => depth,
    }
}

/// What is open after the lines so far.
#[derive(Clone, Copy, Debug, Default)]
pub struct Open {
    brackets: usize,
    comments: usize,
}

impl Open {
    /// Whether the lines need a continuation.
    pub fn is_open(self) -> bool {
        self.brackets > 0 || self.comments > 0
    }

    /// Returns what is open after a further line.
    pub fn behind(self, line: &str) -> Open {
        let text = "/*".repeat(self.comments) + line;
        let mut open = Open { brackets: self.brackets, comments: 0 };
        for (_, token) in Tokens::of(&text) {
            if let Token::OpenComment(comments) = token {
                open.comments = comments;
            }
            open.brackets = depth_after(open.brackets, token);
        }
        open
    }
}

/// Returns the functions at the top level of the text. Incomplete ones are left out.
pub fn functions(text: &str) -> Vec<Function> {
    let mut found = Vec::new();
    let mut tokens = Tokens::of(text);
    let mut depth = 0;
    while let Some((begin, token)) = tokens.next() {
        if depth == 0 && token == Token::Word("fn") {
            found.extend(function(&mut tokens, begin));
        } else {
            depth = depth_after(depth, token);
        }
    }
    found
}

/// Reads the function whose first word was just read.
fn function(tokens: &mut Tokens<'_>, begin: usize) -> Option<Function> {
    let Some((_, Token::Word(name))) = tokens.next() else { return None };
    let Some((_, Token::Mark('('))) = tokens.next() else { return None };
    let mut parameters = 0;
    loop {
        match tokens.next()?.1 {
            Token::Word(_) => parameters += 1,
            Token::Mark(',') => {}
            Token::Mark(')') => break,
            Token::Mark(_) | Token::OpenComment(_) => return None,
        }
    }
    let Some((_, Token::Mark('{'))) = tokens.next() else { return None };
    let mut depth = 1;
    while depth > 0 {
        depth = depth_after(depth, tokens.next()?.1);
    }
    Some(Function { name: name.to_owned(), parameters, text: tokens.text[begin..tokens.at].to_owned() })
}

#[cfg(test)]
mod tests {
    use super::*;

    fn is_open(text: &str) -> bool {
        text.lines().fold(Open::default(), Open::behind).is_open()
    }

    #[test]
    fn open_brackets_and_comments_want_more() {
        for text in [
            "{",
            "f(",
            "[1, (2",
            "if x { y",
            "/* a",
            "/* /* */",
            "let s = \"}\"; {",
            "{ // }",
            "{ /* } */",
            "'}' + {",
            "\"\\\"}\" {",
        ] {
            assert!(is_open(text), "{text}");
        }
        for text in [
            "",
            "1",
            "{ }",
            "f(1)",
            "}",
            "\"{\"",
            "'{'",
            "// {",
            "/* { */",
            "/* /* */ */",
            "\"{",
            "\"a\"\"{\"",
            "'\\''",
            "\"\\\\\" ",
        ] {
            assert!(!is_open(text), "{text}");
        }
    }

    #[test]
    fn functions_at_the_top_are_found() {
        let text = "let x = 1; fn one(a) { a } /* fn no() {} */ fn two(a, b,) {\n  \"}\" + { a }\n}\n{ fn inner() {} } x";
        let one = Function { name: "one".to_owned(), parameters: 1, text: "fn one(a) { a }".to_owned() };
        let two = Function { name: "two".to_owned(), parameters: 2, text: "fn two(a, b,) {\n  \"}\" + { a }\n}".to_owned() };
        assert_eq!(functions(text), [one, two]);
    }

    #[test]
    fn every_short_text_is_gone_through() {
        const PARTS: [&str; 13] = ["{", "}", "(", ")", "\"", "'", "\\", "/*", "*/", "\n", "fn f", " ", "ß"];
        for number in 0..PARTS.len().pow(5) {
            let text: String = (0..5).map(|place| PARTS[number / PARTS.len().pow(place) % PARTS.len()]).collect();
            is_open(&text);
            assert!(functions(&text).iter().all(|function| text.contains(&function.text) && function.name == "f"), "{text}");
        }
    }

    #[test]
    fn what_is_no_function_is_left() {
        for text in ["fn", "fn f", "fn f(", "fn f(a { }", "fn f() { ", "fn 1", "\"fn f() {}\"", "// fn f() {}", "fn f() /* {}"] {
            assert_eq!(functions(text), [], "{text}");
        }
    }
}
