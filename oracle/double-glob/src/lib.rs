//! mitex-glob, with a matcher that tells the tape what it was asked.

use tape::Asked;

pub fn glob_match_prefix(glob: &str, path: &str) -> bool {
    let verdict = mitex_glob::glob_match_prefix(glob, path);
    tape::write(|tape| {
        tape.asked.push(Asked {
            glob: glob.to_owned(),
            path: path.to_owned(),
            verdict,
        })
    });
    verdict
}
