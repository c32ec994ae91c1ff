//! Links the static library. It is looked for in this order:
//!
//! 1. the file that `CUFFGARNET_LIB` names;
//! 2. the repository that this crate stands in: tools/library makes it with `rt` there, unless it is up to date. Where nothing can be
//!    written, neither to target/ nor to the crates' folders out/, the sources are copied to the build's own folder, and it is made from these;
//! 3. an installed one, as pkg-config names it (`make install` in the repository). A crate that was packaged or vendored has no
//!    repository around it.
//!
//! Proving the library from nothing takes minutes. Cargo hides what a build script writes until it has ended, so each step is also told
//! to the terminal, if there is one; `cargo build -vv` shows the steps anywhere.

use std::fs::{self, File, OpenOptions};
use std::io::{self, BufRead, BufReader, Write};
use std::path::{Path, PathBuf};
use std::process::{exit, Command, Stdio};

/// What the library is made of, in the repository: this folder, and these files.
const CRATES: &str = "crates";
const FILES: [&str; 2] = ["crates.txt", "tools/library"];

/// What of a crate the proof reads. The rest, out/ first, is not looked at, for `rt` writes there itself.
const READ: [&str; 3] = ["src", "specs", "proofs"];

/// The library, below the folder in which it is made.
const MADE: &str = "target/staticlib/libcuffgarnet.a";

/// Runs tools/library, and tells each of its lines.
fn make(root: &Path) -> Result<PathBuf, String> {
    let mut terminal: Option<File> = OpenOptions::new().write(true).open("/dev/tty").ok();
    let mut run = Command::new(root.join("tools/library"))
        .current_dir(root)
        .stdout(Stdio::piped())
        .spawn()
        .map_err(|e| format!("cannot run tools/library: {e}; or set CUFFGARNET_LIB to a libcuffgarnet.a"))?;
    if let Some(out) = run.stdout.take() {
        for line in BufReader::new(out).lines().map_while(Result::ok) {
            println!("{line}");
            if let Some(terminal) = &mut terminal {
                _ = writeln!(terminal, "\r  cuffgarnet: {line}");
            }
        }
    }
    let ended = run.wait().map_err(|e| format!("tools/library: {e}"))?;
    ended
        .success()
        .then(|| root.join(MADE))
        .ok_or_else(|| "tools/library could not make the static library".to_string())
}

/// Copies a file, or a folder with all that is in it but what `rt` keeps in folders out/.
fn copy(from: &Path, to: &Path) -> io::Result<()> {
    if !from.is_dir() {
        if let Some(folder) = to.parent() {
            fs::create_dir_all(folder)?;
        }
        return fs::write(to, fs::read(from)?).and_then(|()| fs::set_permissions(to, writable(from)?));
    }
    fs::create_dir_all(to)?;
    fs::read_dir(from)?.try_for_each(|entry| match entry? {
        made if made.file_name() == "out" => Ok(()),
        e => copy(&e.path(), &to.join(e.file_name())),
    })
}

/// The permissions of a file, with the owner's to write.
fn writable(path: &Path) -> io::Result<fs::Permissions> {
    use std::os::unix::fs::PermissionsExt;
    Ok(fs::Permissions::from_mode(fs::metadata(path)?.permissions().mode() | 0o200))
}

/// Whether a file can be made in a folder, which is made first.
fn takes_files(folder: &Path) -> bool {
    let tried = folder.join("tried");
    fs::create_dir_all(folder).and_then(|()| File::create(&tried)).and_then(|_| fs::remove_file(&tried)).is_ok()
}

/// The repository's library, made there or, where nothing can be written and it is missing, from a copy of the sources.
fn in_repository(root: &Path, out: &Path) -> Result<PathBuf, String> {
    let writes = ["target", "crates/cuffgarnet/out"].iter().all(|folder| takes_files(&root.join(folder)));
    if writes || root.join(MADE).exists() {
        return make(root);
    }
    let source = out.join("source");
    for name in [CRATES].iter().chain(&FILES) {
        copy(&root.join(name), &source.join(name)).map_err(|e| format!("cannot copy {name}: {e}"))?;
    }
    make(&source)
}

/// What cargo is to look at: the folders of the crates that the proof reads, and the other sources.
fn sources(root: &Path) -> io::Result<Vec<PathBuf>> {
    let mut found: Vec<PathBuf> = FILES.iter().map(|name| root.join(name)).collect();
    for entry in fs::read_dir(root.join(CRATES))? {
        let folder = entry?.path();
        found.extend(READ.iter().map(|part| folder.join(part)).filter(|part| part.exists()));
    }
    Ok(found)
}

/// The archive of an installation.
fn installed() -> Result<PathBuf, String> {
    let why = "no static library: set CUFFGARNET_LIB to a libcuffgarnet.a, or install it (`make install` in Cuffgarnet's repository) \
               where pkg-config finds cuffgarnet.pc";
    let asked = Command::new("pkg-config")
        .args(["--variable=libdir", "cuffgarnet"])
        .output()
        .map_err(|e| format!("{why}; {e}"))?;
    let folder = String::from_utf8_lossy(&asked.stdout).trim().to_string();
    let archive = Path::new(&folder).join("libcuffgarnet.a");
    archive.exists().then_some(archive).ok_or_else(|| why.to_string())
}

/// The archive that is to be linked.
fn archive(root: &Path, out: &Path) -> Result<PathBuf, String> {
    if let Some(path) = std::env::var_os("CUFFGARNET_LIB") {
        return Ok(PathBuf::from(path));
    }
    if [CRATES].iter().chain(&FILES).all(|name| root.join(name).exists()) {
        for path in sources(root).map_err(|e| format!("{}: {e}", root.display()))? {
            println!("cargo:rerun-if-changed={}", path.display());
        }
        return in_repository(root, out);
    }
    println!("cargo:rerun-if-env-changed=PKG_CONFIG_PATH");
    installed()
}

/// Copies the archive to the build's own folder, so that it stays when the repository's target/ goes, and links it.
fn link() -> Result<(), String> {
    let here = std::env::var_os("CARGO_MANIFEST_DIR").map(PathBuf::from).ok_or("no CARGO_MANIFEST_DIR")?;
    let out = std::env::var_os("OUT_DIR").map(PathBuf::from).ok_or("no OUT_DIR")?;
    println!("cargo:rerun-if-env-changed=CUFFGARNET_LIB");
    println!("cargo:rerun-if-changed=build.rs");
    let lib = archive(here.parent().unwrap_or(&here), &out)?;
    println!("cargo:rerun-if-changed={}", lib.display());
    let bytes = fs::read(&lib).map_err(|e| format!("{}: {e}", lib.display()))?;
    fs::write(out.join("libcuffgarnet.a"), bytes).map_err(|e| format!("{}: {e}", out.display()))?;
    println!("cargo:rustc-link-search=native={}", out.display());
    println!("cargo:rustc-link-lib=static=cuffgarnet");
    Ok(())
}

fn main() {
    if let Err(why) = link() {
        eprintln!("{why}");
        exit(1);
    }
}
