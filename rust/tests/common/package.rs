//! A small package of its own that depends on the crate, for cargo to be called on.
use std::fs;
use std::path::{Path, PathBuf};
use std::process::Command;

pub struct Package(PathBuf);

impl Package {
    /// A package in the target folder, whose programs are these of tests/refused.
    pub fn new(name: &str, programs: &[&str]) -> Package {
        let (crate_dir, dir) = (env!("CARGO_MANIFEST_DIR"), Path::new(env!("CARGO_TARGET_TMPDIR")).join(name));
        let bins = programs.iter().map(|name| (name, format!("{crate_dir}/tests/refused/{name}.rs")));
        let bins: String = bins.map(|(name, path)| format!("[[bin]]\nname = {name:?}\npath = {path:?}\n")).collect();
        let head = format!("[package]\nname = {name:?}\nversion = \"0.0.0\"\nedition = \"2021\"\n[workspace]\n");
        let depends = format!("[dependencies]\nstilefray = {{ path = {crate_dir:?} }}\n");
        fs::create_dir_all(&dir).expect("the target folder can be written");
        fs::write(dir.join("Cargo.toml"), format!("{head}{depends}{bins}")).expect("and a file in it");
        Package(dir)
    }

    pub fn dir(&self) -> &Path {
        &self.0
    }

    /// Cargo on one of the programs, with a target folder of the package's own and nothing from the net.
    pub fn cargo(&self, command: &str, program: &str) -> Command {
        let mut cargo = Command::new(env!("CARGO"));
        cargo.args([command, "--offline", "--quiet", "--color", "never", "--bin", program, "--manifest-path"]);
        cargo.arg(self.0.join("Cargo.toml")).arg("--target-dir").arg(self.0.join("target"));
        cargo
    }
}
