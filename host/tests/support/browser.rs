//! Headless Chromium by way of its driver, over HTTP on this machine (the WebDriver protocol): enough to open a page, to ask it and to point at it.

use std::io::{self, BufRead, BufReader, Read, Write};
use std::net::TcpStream;
use std::path::Path;
use std::process::{Child, ChildStdout, Command, Stdio};
use std::time::Duration;

pub struct Browser {
    driver: Child,
    /// Kept open, as the driver may go on writing.
    said: BufReader<ChildStdout>,
    port: u16,
    session: String,
}

/// `"name":"` and what follows up to the closing quote.
fn text_under(answer: &str, name: &str) -> String {
    let mark = format!("\"{name}\":\"");
    let from = answer.find(&mark).unwrap_or_else(|| panic!("{answer}")) + mark.len();
    let mut out = String::new();
    let mut characters = answer[from..].chars();
    while let Some(character) = characters.next() {
        match character {
            '"' => return out,
            '\\' => out.push(match characters.next() {
                Some('n') => '\n',
                Some('u') => {
                    let code: String = characters.by_ref().take(4).collect();
                    let code = u32::from_str_radix(&code, 16).expect("four digits");
                    char::from_u32(code).expect("a character")
                }
                other => other.expect("an escaped character"),
            }),
            other => out.push(other),
        }
    }
    panic!("{answer}")
}

impl Browser {
    /// Started on a port of the driver's own choice.
    pub fn new() -> Browser {
        let mut driver = Command::new("chromedriver")
            .arg("--port=0")
            .stdout(Stdio::piped())
            .stderr(Stdio::null())
            .spawn()
            .expect("chromedriver, of Debian's package chromium-driver");
        let mut said = BufReader::new(driver.stdout.take().expect("piped"));
        let port = (&mut said)
            .lines()
            .map(|line| line.expect("a line of text"))
            .find_map(|line| {
                let port = line.strip_suffix('.')?.rsplit("on port ").next()?;
                port.parse().ok()
            })
            .expect("the driver says its port");
        let mut browser = Browser {
            driver,
            said,
            port,
            session: String::new(),
        };
        let answer = browser.post(
            "/session",
            r#"{"capabilities":{"alwaysMatch":{"goog:loggingPrefs":{"browser":"ALL"},
                "goog:chromeOptions":{"args":["--headless","--no-sandbox","--disable-gpu","--window-size=1500,1600"]}}}}"#,
        );
        browser.session = text_under(&answer, "sessionId");
        browser
    }

    fn ask(&self, method: &str, path: &str, body: &str) -> io::Result<String> {
        let mut stream = TcpStream::connect(("127.0.0.1", self.port))?;
        stream.set_read_timeout(Some(Duration::from_secs(60)))?;
        let length = body.len();
        write!(
            stream,
            "{method} {path} HTTP/1.1\r\nHost: localhost\r\n\
             Content-Type: application/json\r\nContent-Length: {length}\r\n\r\n{body}"
        )?;
        let mut answer = BufReader::new(stream);
        let mut line = String::new();
        answer.read_line(&mut line)?;
        if !line.contains(" 200 ") {
            return Err(io::Error::other(format!("{path}: {line}")));
        }
        // to its length: a browser that the driver starts holds the connection open
        let mut length = 0;
        while !line.trim().is_empty() {
            line.clear();
            answer.read_line(&mut line)?;
            if let Some(figure) = line.strip_prefix("Content-Length:") {
                length = figure.trim().parse().expect("a length");
            }
        }
        let mut body = vec![0; length];
        answer.read_exact(&mut body)?;
        Ok(String::from_utf8(body).expect("text"))
    }

    fn post(&self, path: &str, body: &str) -> String {
        self.ask("POST", path, body).expect("the driver answers")
    }

    fn in_session(&self, path: &str) -> String {
        format!("/session/{}/{path}", self.session)
    }

    pub fn open(&self, page: &Path) {
        let body = format!(r#"{{"url":"file://{}"}}"#, page.display());
        self.post(&self.in_session("url"), &body);
    }

    /// What an expression of the page comes to, as text. It has no quotes but single ones.
    pub fn text(&self, expression: &str) -> String {
        let body = format!(r#"{{"script":"return String({expression})","args":[]}}"#);
        text_under(&self.post(&self.in_session("execute/sync"), &body), "value")
    }

    /// What the page, and all that it asked for, said on the console.
    pub fn console(&self) -> String {
        self.post(&self.in_session("se/log"), r#"{"type":"browser"}"#)
    }

    /// Moves the pointer to a place of the window.
    pub fn point_at(&self, x: i64, y: i64) {
        let body = format!(
            r#"{{"actions":[{{"type":"pointer","id":"mouse","actions":[{{"type":"pointerMove","x":{x},"y":{y},"duration":0}}]}}]}}"#
        );
        self.post(&self.in_session("actions"), &body);
    }
}

impl Drop for Browser {
    fn drop(&mut self) {
        // ends the browser, which would outlive its driver
        let _ = self.ask("DELETE", &format!("/session/{}", self.session), "");
        let _ = self.driver.kill();
        let _ = self.driver.wait();
    }
}
