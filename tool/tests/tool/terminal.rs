//! On a terminal: colours, and the progress line, which is gone after the end and after Ctrl-C. `script` gives the terminal.

use crate::screen::Screen;
use crate::support::{Folder, TOOL, image, sound};
use std::io::{Read, Write};
use std::process::{Child, Command, Stdio};
use std::sync::mpsc::{self, Receiver};
use std::thread;
use std::time::{Duration, Instant};

/// What a command line writes to a terminal.
fn on_terminal(folder: &Folder, line: &str, variables: &[(&str, &str)]) -> String {
    let mut script = Command::new("script");
    script.args(["-qec", &format!("{TOOL} {line}"), "/dev/null"]).env_remove("NO_COLOR");
    script.env("TERM", "xterm").envs(variables.iter().copied()).stdin(Stdio::null());
    let output = script.current_dir(&folder.0).output().expect("script, of util-linux, is here");
    String::from_utf8(output.stdout).unwrap()
}

#[test]
fn colours_on_a_terminal_alone() {
    let folder = Folder::new();
    folder.write("in", image(&sound(100, 1), 32_000, 80));
    folder.write("bad", "x");
    assert!(on_terminal(&folder, "check in", &[]).contains("\x1b[32mopens and plays\x1b[0m"));
    assert!(on_terminal(&folder, "check bad", &[]).contains("\x1b[31mnot an image"));
    assert!(on_terminal(&folder, "check absent", &[]).contains("\x1b[31mdoilycairn:\x1b[0m"));
    for line in ["check in", "check bad", "check absent"] {
        for variable in [("NO_COLOR", "1"), ("TERM", "dumb")] {
            let text = on_terminal(&folder, line, &[variable]);
            assert!(!text.contains('\x1b') && !text.is_empty(), "{text}");
        }
        let piped = folder.run(line);
        assert!(!piped.out.contains('\x1b') && !piped.err.contains('\x1b'));
    }
}

/// A shell in a terminal.
struct Shell {
    child: Child,
    pieces: Receiver<Vec<u8>>,
    text: String,
}

impl Shell {
    fn start(folder: &Folder) -> Self {
        let mut script = Command::new("script");
        // A caller in the background may ignore SIGINT, and a shell hands that on.
        let bash = "env --default-signal=INT bash --norc --noprofile -i";
        script.args(["-qfec", bash, "/dev/null"]);
        script.env("TERM", "xterm").env_remove("PROMPT_COMMAND");
        script.stdin(Stdio::piped()).stdout(Stdio::piped()).current_dir(&folder.0);
        let mut child = script.spawn().expect("script, of util-linux, is here");
        let mut out = child.stdout.take().unwrap();
        let (sender, pieces) = mpsc::channel();
        thread::spawn(move || {
            let mut piece = [0; 4096];
            while let Ok(got @ 1..) = out.read(&mut piece) {
                let _ = sender.send(piece[..got].to_vec());
            }
        });
        let mut shell = Self { child, pieces, text: String::new() };
        shell.send("PS1='PROM''PT> '\n");
        shell.wait("PROMPT> ", 1);
        shell
    }

    fn send(&mut self, text: &str) {
        self.child.stdin.as_mut().unwrap().write_all(text.as_bytes()).unwrap();
    }

    /// Reads until the text has this so often.
    fn wait(&mut self, words: &str, times: usize) {
        let end = Instant::now() + Duration::from_secs(20);
        while self.text.matches(words).count() < times {
            let left = end.saturating_duration_since(Instant::now());
            let piece = self
                .pieces
                .recv_timeout(left)
                .unwrap_or_else(|_| panic!("no '{words}': {:?}", self.text));
            self.text.push_str(&String::from_utf8_lossy(&piece));
        }
    }

    /// Leaves the shell: what the screen shows then.
    fn leave(mut self) -> String {
        self.send("exit\n");
        self.child.wait().unwrap();
        while let Ok(piece) = self.pieces.recv_timeout(Duration::from_secs(5)) {
            self.text.push_str(&String::from_utf8_lossy(&piece));
        }
        Screen::of(&self.text).text()
    }
}

/// A folder with an image and a pipe with a name; whoever reads from it is slow, for so many milliseconds.
fn slow(milliseconds: u64) -> Folder {
    let folder = Folder::new();
    folder.write("in.dspc", image(&sound(2_000_000, 1), 32_000, 8192));
    let pipe = folder.path("pipe");
    assert!(Command::new("mkfifo").arg(&pipe).status().unwrap().success());
    thread::spawn(move || {
        let (mut reader, mut piece) = (std::fs::File::open(pipe).unwrap(), vec![0; 1 << 15]);
        let end = Instant::now() + Duration::from_millis(milliseconds);
        while reader.read(&mut piece).is_ok_and(|got| got > 0) {
            if Instant::now() < end {
                thread::sleep(Duration::from_millis(20));
            }
        }
    });
    folder
}

#[test]
fn the_progress_is_gone_after_ctrl_c() {
    let folder = slow(5000);
    let mut shell = Shell::start(&folder);
    shell.send(&format!("{TOOL} decode in.dspc pipe\n"));
    shell.wait(" %", 2);
    assert!(Screen::of(&shell.text).text().contains("\ndecoding "));
    shell.send("\x03");
    shell.wait("PROMPT> ", 2);
    shell.wait("\x1b[J", 1);
    shell.send("echo status $?\n");
    shell.wait("status 130", 1);
    let screen = shell.leave();
    assert!(screen.contains("\n^C\nPROMPT> echo status $?\nstatus 130\n"), "{screen}");
    assert!(!screen.contains("decoding") && !screen.contains('%'), "{screen}");
}

#[test]
fn the_progress_is_gone_after_the_end() {
    let folder = slow(700);
    let mut shell = Shell::start(&folder);
    shell.send(&format!("{TOOL} decode in.dspc pipe\n"));
    shell.wait(" %", 1);
    shell.wait("PROMPT> ", 2);
    let screen = shell.leave();
    assert!(
        screen.contains("\npipe: 2,000,000 samples at 32,000 Hz (1:02.5 min) of in.dspc\nPROMPT> "),
        "{screen}"
    );
    assert!(!screen.contains("decoding"), "{screen}");
}
