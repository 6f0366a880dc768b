//! Draws the crates and the chain of theorems: `pictures CRATES.TXT PICTURE.SVG`.

mod chain;
mod crates;
mod svg;

use std::{env, error::Error, fs};

/// The picture for a text of the form of `crates.txt`.
fn picture(text: &str) -> String {
    let ((width, height), crates) = crates::shapes(&crates::listed(text));
    let (chain_width, chain_height) = chain::size();
    let shapes = crates + &chain::shapes((width + 20.0, 30.0));
    svg::document((width + chain_width, height.max(chain_height)), &shapes)
}

fn main() -> Result<(), Box<dyn Error>> {
    let words: Vec<String> = env::args().skip(1).collect();
    let [list, file] = words.as_slice() else {
        return Err("pictures CRATES.TXT PICTURE.SVG".into());
    };
    fs::write(file, picture(&fs::read_to_string(list)?))?;
    Ok(())
}

#[cfg(test)]
mod tests {
    use super::*;
    use std::path::Path;

    fn root() -> &'static Path {
        Path::new(concat!(env!("CARGO_MANIFEST_DIR"), "/../.."))
    }

    fn texts(folder: &Path) -> String {
        let files =
            fs::read_dir(folder).expect("a folder").map(|entry| entry.expect("a file").path());
        let text = |path: std::path::PathBuf| match path.is_dir() {
            true => texts(&path),
            false => fs::read_to_string(&path).unwrap_or_default(),
        };
        files.map(text).collect()
    }

    #[test]
    fn stored_picture_is_that_of_the_list() {
        let list = fs::read_to_string(root().join("crates.txt")).expect("crates.txt");
        let stored = fs::read_to_string(root().join("docs/crates.svg")).expect("docs/crates.svg");
        assert_eq!(stored, picture(&list), "make it anew: pictures crates.txt docs/crates.svg");
    }

    #[test]
    fn names_of_the_chain_are_in_the_crates() {
        let all = texts(&root().join("crates"));
        for link in &chain::CHAIN {
            assert!(
                all.contains(&format!(" {} ", link.name))
                    || all.contains(&format!(" {}(", link.name)),
                "{}",
                link.name
            );
            assert!(all.contains(link.theorem), "{}", link.theorem);
        }
    }

    #[test]
    fn a_crate_is_below_all_that_it_builds_on() {
        let named = |text| crates::listed(text).iter().map(|one| one.name).collect::<Vec<_>>();
        assert_eq!(named("# NAME: needs\na:\nb: a io\nc: a b\n"), ["a", "b", "c"]);
        assert_eq!(named("# NAME: needs\na:\nb: a io\nc staticlib: a b\n"), ["a", "b", "c"]);
        let drawn = picture("a:\nb: a\nc: a b\n");
        assert_eq!(drawn.matches("<line").count(), 2 + chain::CHAIN.len() - 1);
    }
}
