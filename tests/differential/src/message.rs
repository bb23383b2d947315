//! The decoded picture hash message that x265 writes, read out of its bitstream, and tested by a decoder.
use crate::checksum::Plane;
use std::path::Path;
use std::process::{Command, Stdio};
use std::{env, fs, process};

/// Its name and version, where it is installed.
pub fn encoder() -> Option<String> {
    let told = Command::new("x265").arg("--version").output().ok()?;
    let text = String::from_utf8_lossy(&told.stderr).into_owned();
    Some(text.lines().find_map(|l| l.split("version ").nth(1)).map_or("x265".into(), |v| format!("x265 {}", v.trim())))
}

/// libde265's decoder, where it is installed; Debian gives it a name of its own. It is asked at 8 bits alone: above, its version 1.0.11
/// refuses every message, also where the picture that it decodes is the one that was coded.
pub fn decoder() -> Option<&'static str> {
    ["dec265", "libde265-dec265"].into_iter().find(|name| Command::new(name).arg("--help").output().is_ok())
}

/// Whether the decoder finds the sums of the picture that it decodes in the stream's message.
fn accepts(decoder: &str, stream: &Path) -> bool {
    let done = Command::new(decoder).args(["-q", "-c"]).arg(stream).stdout(Stdio::null()).stderr(Stdio::null()).status();
    done.expect("the decoder runs").success()
}

/// The sums of a picture's components, which the decoder must find, and must not where the message has another. Lossless, so that the decoded picture is the one given; blocks of 8, so that nothing is padded.
pub fn written(bits: u32, format: u32, planes: &[Plane], decoder: Option<&str>) -> Vec<u32> {
    let at = env::temp_dir().join(format!("salvrunde-{}", process::id()));
    fs::create_dir_all(&at).expect("a folder for the picture");
    let (picture, stream) = (at.join("picture.yuv"), at.join("stream.hevc"));
    let all = planes.iter().flat_map(|p| &p.samples);
    let bytes: Vec<u8> = if bits == 8 { all.map(|&v| v as u8).collect() } else { all.flat_map(|v| v.to_le_bytes()).collect() };
    fs::write(&picture, bytes).expect("the picture is written");
    let size = format!("{}x{}", planes[0].width, planes[0].height);
    let depth = bits.to_string();
    let csp = ["i400", "i420", "i422", "i444"][format as usize];
    let words = ["--input-res", &size, "--input-depth", &depth, "--output-depth", &depth, "--input-csp", csp, "--fps", "1"];
    let done = Command::new("x265")
        .args(words)
        .args(["--frames", "1", "--lossless", "--hash", "3", "--min-cu-size", "8", "--preset", "ultrafast", "--no-info"])
        .args(["--input".as_ref(), picture.as_os_str(), "-o".as_ref(), stream.as_os_str()])
        .stderr(Stdio::null())
        .status();
    assert!(done.expect("x265 runs").success(), "x265 takes the picture");
    let mut coded = fs::read(&stream).expect("the bitstream is read");
    let sums = sums(&coded, planes.len());
    if let Some(decoder) = decoder {
        assert!(accepts(decoder, &stream), "{decoder} finds the sums at {bits} bits, format {format}");
        // the last byte of the last sum stands before the unit's end
        let last = coded.len() - 2;
        coded[last] ^= 1;
        fs::write(&stream, &coded).expect("the bitstream is written");
        assert!(!accepts(decoder, &stream), "{decoder} finds another sum");
    }
    fs::remove_dir_all(&at).expect("the folder is taken away");
    sums
}

/// Of the message in a suffix SEI unit: payload type 132, hash type 2, then four bytes a component, the highest first.
fn sums(stream: &[u8], components: usize) -> Vec<u32> {
    let starts: Vec<usize> = (0..stream.len() - 3).filter(|&i| stream[i..i + 3] == [0, 0, 1]).map(|i| i + 3).collect();
    let unit = starts.iter().find(|&&i| stream[i] >> 1 & 63 == 40).expect("a suffix SEI unit");
    let payload = unescaped(&stream[unit + 2..]);
    assert_eq!((payload[0], payload[1] as usize, payload[2]), (132, 1 + 4 * components, 2), "the checksum kind");
    payload[3..].chunks(4).take(components).map(|b| u32::from_be_bytes(b.try_into().unwrap())).collect()
}

/// Without the 3 that stands after two zeros.
fn unescaped(bytes: &[u8]) -> Vec<u8> {
    let mut out: Vec<u8> = Vec::new();
    let mut zeros = 0;
    for &b in bytes {
        if zeros >= 2 && b == 3 {
            zeros = 0;
            continue;
        }
        zeros = if b == 0 { zeros + 1 } else { 0 };
        out.push(b);
    }
    out
}
