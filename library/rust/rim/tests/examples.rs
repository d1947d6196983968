//! The examples and cases of the repository, by the crate: each has what the program prints.

use std::fs;
use std::path::PathBuf;

use rim::{Error, Found};

fn top() -> PathBuf {
    [env!("CARGO_MANIFEST_DIR"), "..", "..", ".."].iter().collect()
}

fn data(path: &str) -> Vec<u8> {
    fs::read(top().join(path)).unwrap_or_else(|why| panic!("{}: {}", path, why))
}

/// What the program prints in a case.
fn kept(case: &str) -> String {
    String::from_utf8(data(&format!("tests/cases/{}/stdout", case))).unwrap()
}

/// A manifest of the examples, with its files.
struct Example {
    manifest: Vec<u8>,
    files: Vec<(String, Vec<u8>)>,
}

impl Example {
    fn of(name: &str) -> Example {
        let manifest = data(&format!("examples/{}/manifest.toml", name));
        let files = rim::manifest_paths(&manifest).unwrap().into_iter().map(|path| (path.clone(), data(&path)));
        Example { files: files.collect(), manifest }
    }

    fn files(&self) -> Vec<(&str, &[u8])> {
        self.files.iter().map(|(path, bytes)| (path.as_str(), bytes.as_slice())).collect()
    }
}

#[test]
fn reports_are_those_of_the_program() {
    for (name, case) in [("first", "first-example"), ("kernel", "kernel-example"), ("vm", "virtual-machine")] {
        let example = Example::of(name);
        let report = rim::measure(&example.manifest, &example.files()).unwrap();
        assert_eq!(report.text, kept(case));
        let lines = report.launches.iter().map(|launch| match launch.rim {
            Ok(rim) => format!("{} {}\n", launch.name, rim),
            Err(why) => format!("{} refused {}\n", launch.name, why.word()),
        });
        assert_eq!(format!("rim-report 1\n{}pages {}\n", lines.collect::<String>(), report.pages), kept(case));
        for launch in &report.launches {
            assert_eq!(rim::launch_rim(&example.manifest, &example.files(), &launch.name), launch.rim);
            assert_eq!(report.rim(&launch.name), launch.rim);
        }
    }
}

#[test]
fn other_answers_are_those_of_the_program() {
    let example = Example::of("vm");
    let (manifest, files) = (example.manifest.as_slice(), example.files());
    assert_eq!(rim::audit(manifest, &files).unwrap().text, kept("virtual-machine-audit"));
    assert_eq!(rim::list_commands(manifest, &files, "one-vcpu").unwrap(), kept("virtual-machine-listing"));
    assert_eq!(rim::trace(manifest, &files, "two-vcpus").unwrap(), kept("virtual-machine-log-trace"));
    let map = rim::map(manifest, &files, "two-vcpus").unwrap();
    assert_eq!((map.text, map.is_refused), (kept("virtual-machine-map"), false));
    assert_eq!(rim::dtb(manifest, &files, "one-vcpu").unwrap(), data("tests/cases/virtual-machine-devicetree/stdout"));
    let check = rim::check("examples/vm/manifest.toml", manifest, &files, false).unwrap();
    assert_eq!((check.text, check.found), (kept("virtual-machine-check"), Found::Refused));
    let json = rim::check_json("m", manifest, &files, true).unwrap();
    assert!(json.text.contains("\"warnings\":[]") && json.found == Found::Refused);
    assert!(rim::measure_json("m", manifest, &files).unwrap().contains("\"path\":\"m\""));
    assert!(rim::map_json(manifest, &files, "initrd-in-the-kernel").unwrap().is_refused);
    let replay = rim::replay(&data("tests/cases/virtual-machine-replay/listing")).unwrap();
    assert_eq!((replay.text, replay.is_right), (kept("virtual-machine-replay"), true));
    assert!(!rim::replay(b"").unwrap().is_right);
    assert_eq!(rim::fdt(&data("tests/cases/nodes-64-deep/d")).unwrap(), kept("nodes-64-deep"));
    assert!(rim::image(&data("examples/vm/Image")).unwrap().starts_with("text_offset 0000000000000000\nimage_size 0000000000200000\n"));
    assert!(rim::version().unwrap().starts_with(concat!(env!("CARGO_PKG_VERSION"), " (")));
}

#[test]
fn each_code_has_an_error() {
    let header = String::from_utf8(data("library/rim.h")).unwrap();
    let lines = header.split("} rim_code;").next().unwrap().lines().filter_map(|line| line.strip_prefix("    RIM_")?.trim_end_matches(',').split_once(" = "));
    let codes: Vec<(u32, String)> = lines.map(|(name, code)| (code.parse().unwrap(), name.into())).collect();
    let expected: Vec<(u32, String)> = codes.into_iter().filter(|(code, _)| ![0, 1, 3].contains(code)).collect();
    let found = Error::ALL.iter().map(|each| (each.code(), each.word().to_uppercase().replace('-', "_")));
    assert_eq!(sorted(found.collect()), sorted(expected));
    for each in Error::ALL {
        let name: String = each.word().split('-').map(|part| part[..1].to_uppercase() + &part[1..]).collect();
        assert_eq!(format!("{:?}", each), name);
        assert_eq!((Error::of_code(each.code()), Error::of_word(each.word())), (*each, Some(*each)));
        assert!(each.to_string().starts_with(&format!("{}: ", each.word())));
    }
    assert_eq!((Error::of_code(94), Error::of_word("none")), (Error::Unknown(94), None));
}

fn sorted(mut pairs: Vec<(u32, String)>) -> Vec<(u32, String)> {
    pairs.sort();
    pairs
}

#[test]
fn faults_have_their_errors() {
    let example = Example::of("vm");
    let (manifest, files) = (example.manifest.as_slice(), example.files());
    assert_eq!(rim::measure(manifest, &[]), Err(Error::NoFile));
    assert_eq!(rim::measure(b"\xff", &[]), Err(Error::Syntax));
    assert_eq!(rim::measure(b"", &[]), Err(Error::Version));
    assert_eq!(rim::measure(b"rim_manifest = 1\nlaunches = []", &[]), Err(Error::UnknownKey));
    assert_eq!(rim::launch_rim(manifest, &files, "initrd-in-the-kernel"), Err(Error::Overlap));
    assert_eq!(rim::list_commands(manifest, &files, "initrd-in-the-kernel"), Err(Error::Overlap));
    assert_eq!(rim::trace(manifest, &files, "initrd-in-the-kernel"), Err(Error::Overlap));
    assert_eq!(rim::dtb(manifest, &files, "initrd-in-the-kernel"), Err(Error::Overlap));
    for name in ["", "one-vcpu\0", "\u{4e2d}"] {
        assert_eq!(rim::launch_rim(manifest, &files, name), Err(Error::NoSuchLaunch));
        assert_eq!(rim::map(manifest, &files, name), Err(Error::NoSuchLaunch));
    }
    assert_eq!(rim::image(b""), Err(Error::KernelShort));
    assert_eq!(rim::fdt(&[0; 40]), Err(Error::DtbBadMagic));
    assert!(Error::Overlap.is_of_launch() && !Error::Overlap.is_of_manifest() && Error::Syntax.is_of_manifest());
}

#[test]
fn a_file_may_be_empty_and_the_first_of_a_path_counts() {
    let example = Example::of("kernel");
    let kernel = example.files()[0].1;
    let files: [(&str, &[u8]); 3] = [("", b""), ("examples/vm/Image", kernel), ("examples/vm/Image", b"")];
    assert_eq!(rim::measure(&example.manifest, &files).unwrap().text, kept("kernel-example"));
    assert_eq!(rim::launch_rim(&example.manifest, &[("examples/vm/Image", b"")], "vm"), Err(Error::KernelShort));
}

/// 65,536 pages of zeros: a trace has more bytes than the first room.
#[test]
fn a_large_answer_has_room() {
    let manifest = b"rim_manifest = 1
file = [{ name = 'zeros', path = 'zeros' }]
[[launch]]
name = 'large'
algo = 'sha512'
s2sz = 40
ram = [[0x40000000, 0x50000000]]
item = [{ name = 'zeros', kind = 'raw', file = 'zeros', at = 0x40000000, size = 0x10000000 }]
";
    let text = rim::trace(manifest, &[("zeros", b"")], "large").unwrap();
    let rim = rim::launch_rim(manifest, &[("zeros", b"")], "large").unwrap().to_string();
    assert!(text.len() > 16 << 20 && text.ends_with('\n'));
    assert_eq!(text.lines().filter(|line| line.contains(" data_create ")).count(), 65_536);
    assert_eq!(text.lines().last().unwrap().split(' ').next(), rim.split(' ').nth(1));
}

#[test]
fn threads_have_each_its_own_answer() {
    let (vm, kernel) = (Example::of("vm"), Example::of("kernel"));
    std::thread::scope(|scope| {
        for number in 0..8 {
            let (example, case) = if number % 2 == 0 { (&vm, "virtual-machine") } else { (&kernel, "kernel-example") };
            scope.spawn(move || {
                for _ in 0..10 {
                    assert_eq!(rim::measure(&example.manifest, &example.files()).unwrap().text, kept(case));
                }
            });
        }
    });
}
