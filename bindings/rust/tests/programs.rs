// What a person does at a prompt: the README's lines in another folder, a program without std, the examples, a build
// without the archive.
use std::path::{Path, PathBuf};
use std::process::{Command, Output};
use std::{env, fs};

const HERE: &str = env!("CARGO_MANIFEST_DIR");

fn text(bytes: &[u8]) -> String {
    String::from_utf8(bytes.to_vec()).unwrap()
}

fn said(output: &Output) -> String {
    assert!(output.status.success(), "{}", text(&output.stderr));
    text(&output.stdout)
}

fn fresh(folder: PathBuf) -> PathBuf {
    if folder.exists() {
        fs::remove_dir_all(&folder).unwrap();
    }
    fs::create_dir_all(&folder).unwrap();
    folder
}

/// The archive that these tests are linked with.
fn archive() -> PathBuf {
    let root = Path::new(HERE).join("../..");
    let folders = match env::var_os("PINE_LIB_DIR").filter(|named| !named.is_empty()) {
        Some(named) => vec![PathBuf::from(named)],
        None => vec![root.join("build"), root.join("crates/pine_c/out")],
    };
    let mut archives = folders.iter().map(|folder| folder.join("libpine_c.a"));
    archives.find(|archive| archive.is_file()).unwrap()
}

#[test]
fn the_lines_of_the_readme_work_from_another_folder() {
    let root = Path::new(HERE).join("../..");
    let readme = fs::read_to_string(root.join("README.md")).unwrap();
    let (_, section) = readme.split_once("## From Rust\n").unwrap();
    let (section, _) = section.split_once("\n## ").unwrap();
    let (_, program) = section.split_once("```rust\n").unwrap();
    let (program, lines) = program.split_once("```\n").unwrap();
    let folder = fresh(env::temp_dir().join(format!("jihmeto-pine-{}", std::process::id())));
    fs::copy(archive(), folder.join("libpine_c.a")).unwrap();
    let first = folder.join("first");
    let commands = lines.lines().filter_map(|line| line.strip_prefix("    "));
    let mut last = None;
    for command in commands {
        let command = command
            .replace("make lib && ", "")
            .replace("../first", first.to_str().unwrap());
        let output = Command::new("sh")
            .args(["-c", &command])
            .current_dir(&root)
            .env("CARGO_NET_OFFLINE", "true")
            .env("CARGO_TARGET_DIR", folder.join("target"))
            .env("PINE_LIB_DIR", &folder)
            .output()
            .unwrap();
        last = Some(said(&output));
        fs::write(first.join("src/main.rs"), program).unwrap();
    }
    fs::remove_dir_all(&folder).unwrap();
    assert_eq!(last.as_deref(), Some("[1.5, 2.0]\n"));
}

#[test]
fn without_features_core_is_enough() {
    let folder = fresh(Path::new(env!("CARGO_TARGET_TMPDIR")).join("core"));
    let manifest = format!(
        "[package]\nname = \"core-alone\"\nedition = \"2021\"\n\
         [lib]\npath = \"lib.rs\"\ncrate-type = [\"staticlib\"]\n\
         [profile.dev]\npanic = \"abort\"\n\
         [dependencies]\njihmeto-pine = {{ path = {HERE:?}, default-features = false }}\n\
         [workspace]\n"
    );
    fs::write(folder.join("Cargo.toml"), manifest).unwrap();
    // with std there would be a second panic handler, and with alloc no allocator
    let program = "#![no_std]
        #[panic_handler]
        fn panic(_: &core::panic::PanicInfo) -> ! { loop {} }
        #[no_mangle]
        pub extern \"C\" fn check() -> bool {
            jihmeto_pine::Pine::new(jihmeto_pine::PineParam::standard(1, 4, 0, 1, 1, 2, 2)).is_ok()
        }";
    fs::write(folder.join("lib.rs"), program).unwrap();
    let built = Command::new(env!("CARGO"))
        .args(["build", "--offline", "--quiet"])
        .current_dir(&folder)
        .env("CARGO_TARGET_DIR", folder.join("target"))
        .output();
    said(&built.unwrap());
}

fn example(words: &[&str]) -> Output {
    Command::new(env!("CARGO"))
        .args(["run", "--offline", "--quiet", "--example"])
        .args(words)
        .current_dir(HERE)
        .env(
            "CARGO_TARGET_DIR",
            Path::new(env!("CARGO_TARGET_TMPDIR")).join("examples"),
        )
        .output()
        .unwrap()
}

#[test]
fn the_client_sends_two_rows() {
    let lines = said(&example(&["client"]));
    for server in ["leader", "helper"] {
        let start = format!("to the {server}: two seeds of 16 bytes and 235 elements, first ");
        assert!(lines.contains(&start), "{lines}");
    }
    assert!(lines.contains("NOT FOR USE"));
    // the two first elements add up to 1.5 · 2^8, modulo p
    let firsts: Vec<u128> = lines
        .lines()
        .filter_map(|line| line.split_once("first "))
        .map(|(_, numbers)| numbers.split(',').next().unwrap().parse().unwrap())
        .collect();
    let sum: u128 = firsts.iter().sum();
    assert_eq!(sum % u128::from(jihmeto_pine::FIELD_MODULUS), 384);

    let refused = example(&["client", "--", "100", "0", "0", "0", "0"]);
    assert!(!refused.status.success());
    assert_eq!(
        text(&refused.stderr),
        "client: the squared norm is above its bound (rule 10)\n"
    );
}

#[test]
fn the_servers_add_what_is_valid() {
    let lines = said(&example(&["server"]));
    assert_eq!(
        lines.lines().collect::<Vec<_>>(),
        [
            "report 1: valid, added",
            "report 2: valid, added",
            "report 3: valid, added",
            "report 4: not valid, not added",
            "report 5: a row has another length than derived (rule 7, row 1), not added",
            "the sum of 3 gradients: [-1.5, -1.0, 1.5, 5.5, -9.875]",
            "without the second: [1.5, -1.5, -6.5, 6.5, -10.125]",
            "FOR SHOW: the shares were added in one place, and the randomness is NOT FOR USE",
        ]
    );
}

#[cfg(feature = "alloc")]
#[test]
fn a_file_is_listed() {
    use jihmeto_pine::{FileKey, Pine, PineParam, Share, FIELD_MODULUS};
    let folder = fresh(Path::new(env!("CARGO_TARGET_TMPDIR")).join("list"));
    let pine = Pine::new(PineParam::standard(4096, 2, 8, 16, 2, 10, 10)).unwrap();
    let key = |address, valve| FileKey { address, valve };
    let (one, two) = ([2, 0, 0, 0, 0, 9], [2, 0, 0, 0, 0, 10]);
    let mut files = [pine.day_file().unwrap(), pine.day_file().unwrap()];
    for (key, x) in [(key(two, 7), 128), (key(one, 7), 384), (key(one, 7), 1)] {
        files[0].add(key, &Share::new([5, x])).unwrap();
        files[1]
            .add(key, &Share::new([FIELD_MODULUS - 5, x]))
            .unwrap();
    }
    files[0].add(key(one, 300), &Share::new([0, 0])).unwrap();
    files[1].add(key(two, 7), &Share::new([0, 0])).unwrap();
    let names = ["left", "right"].map(|name| folder.join(name));
    for (name, file) in names.iter().zip(&files) {
        fs::write(name, file.bytes()).unwrap();
    }
    let [left, right] = names.each_ref().map(|name| name.to_str().unwrap());
    let raw = said(&example(&["list", "--", left]));
    assert_eq!(
        raw.lines().collect::<Vec<_>>(),
        [
            "3 entries of dimension 2",
            "address            valve     reports  elements, in hexadecimal",
            "02:00:00:00:00:09      7           2  000000000000000a 0000000000000181",
            "02:00:00:00:00:09    300           1  0000000000000000 0000000000000000",
            "02:00:00:00:00:0a      7           1  0000000000000005 0000000000000080",
        ]
    );
    let sums = said(&example(&["list", "--", left, right, "8"]));
    assert_eq!(
        sums.lines().skip(1).collect::<Vec<_>>(),
        [
            "address            valve     reports  decoded sums",
            "02:00:00:00:00:09      7           2  0 3.0078125",
            "02:00:00:00:00:09    300           1  not in the other file",
            "02:00:00:00:00:0a      7        1, 2  not the same reports",
        ]
    );
    fs::write(&names[1], &files[1].bytes()[1..]).unwrap();
    let refused = example(&["list", "--", left, right, "8"]);
    assert!(!refused.status.success());
    assert_eq!(
        text(&refused.stderr),
        format!("list: {right}: the bytes or rows are no file of this dimension (rule 14)\n")
    );
}

#[test]
fn the_archive_is_found_where_the_documentation_says() {
    let root = fresh(Path::new(env!("CARGO_TARGET_TMPDIR")).join("archive"));
    let script = root.join("script");
    let built = Command::new("rustc")
        .args(["--edition", "2021", "build.rs", "-o"])
        .arg(&script)
        .current_dir(HERE)
        .output();
    said(&built.unwrap());
    let manifest = root.join("bindings/rust");
    fs::create_dir_all(&manifest).unwrap();
    let run = |named: Option<&Path>, processor: &str| {
        let mut command = Command::new(&script);
        command
            .env("CARGO_MANIFEST_DIR", &manifest)
            .env("CARGO_CFG_TARGET_ARCH", processor)
            .env_remove("PINE_LIB_DIR");
        if let Some(folder) = named {
            command.env("PINE_LIB_DIR", folder);
        }
        command.output().unwrap()
    };
    let searched = |folder: &Path| format!("cargo:rustc-link-search=native={}\n", folder.display());
    let put = |folder: &Path| {
        fs::create_dir_all(folder).unwrap();
        fs::write(folder.join("libpine_c.a"), "").unwrap();
    };
    let [build, staticlib, named] = ["build", "crates/pine_c/out", "named"].map(|f| root.join(f));

    let missing = run(None, "x86_64");
    assert!(!missing.status.success());
    assert_eq!(
        text(&missing.stderr),
        format!(
            "jihmeto-pine: libpine_c.a is not in {} nor in {}: run 'make lib' at the repository's root, or set \
             PINE_LIB_DIR to the folder that has it\n",
            build.display(),
            staticlib.display()
        )
    );
    put(&staticlib);
    assert!(said(&run(None, "x86_64")).contains(&searched(&staticlib)));
    put(&build);
    assert!(said(&run(None, "x86_64")).contains(&searched(&build)));
    let unnamed = Some(Path::new(""));
    assert!(said(&run(unnamed, "x86_64")).contains(&searched(&build)));
    let missing = run(Some(&named), "x86_64");
    assert!(!missing.status.success());
    assert!(text(&missing.stderr).contains("run 'make lib'"));
    let relative = run(Some(Path::new("build")), "x86_64");
    assert!(!relative.status.success());
    assert_eq!(
        text(&relative.stderr),
        "jihmeto-pine: PINE_LIB_DIR=build is not absolute\n"
    );
    put(&named);
    assert!(said(&run(Some(&named), "x86_64")).contains(&searched(&named)));
    let other = run(Some(&named), "aarch64");
    assert!(!other.status.success());
    assert_eq!(
        text(&other.stderr),
        "jihmeto-pine: libpine_c.a is code for x86-64 only\n"
    );
}
