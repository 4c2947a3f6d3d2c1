// An SMT solver, Debian's z3, beside the proved verdict: the paper's way to decide Def. 3.5.

use std::io::{BufRead, BufReader, Write};
use std::process::{Child, ChildStdin, ChildStdout, Command, Stdio};

/// What z3 says of its version, if it is there.
pub fn version() -> Option<String> {
    let output = Command::new("z3").arg("--version").output().ok()?;
    let line = String::from_utf8(output.stdout).ok()?;
    output.status.success().then(|| line.trim().to_string())
}

/// A z3 that runs. It ends when it is dropped.
pub struct Solver {
    process: Child,
    questions: Option<ChildStdin>,
    answers: BufReader<ChildStdout>,
}

impl Solver {
    /// Starts one for questions of this logic.
    pub fn start(logic: &str) -> Solver {
        let mut process = Command::new("z3")
            .args(["-in", "-smt2"])
            .stdin(Stdio::piped())
            .stdout(Stdio::piped())
            .spawn()
            .expect("z3 starts");
        let mut solver = Solver {
            questions: process.stdin.take(),
            answers: BufReader::new(process.stdout.take().expect("piped")),
            process,
        };
        solver.say(logic);
        solver
    }

    fn say(&mut self, text: &str) {
        let questions = self.questions.as_mut().expect("open until dropped");
        questions.write_all(text.as_bytes()).expect("z3 reads");
        questions.flush().expect("z3 reads");
    }

    /// Is there a solution? What the script declares is forgotten afterwards, by 'pop': 'reset'
    /// would take longer than the question.
    pub fn satisfiable(&mut self, script: &str) -> bool {
        self.say(&format!("(push 1)\n{script}(pop 1)\n"));
        let mut answer = String::new();
        self.answers.read_line(&mut answer).expect("z3 answers");
        match answer.trim() {
            "sat" => true,
            "unsat" => false,
            other => panic!("z3 answers {other:?} to\n{script}"),
        }
    }
}

impl Drop for Solver {
    fn drop(&mut self) {
        // The end of its input ends it.
        self.questions = None;
        let _ = self.process.wait();
    }
}
