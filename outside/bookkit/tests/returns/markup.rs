//! Pages and pictures are whole, and hold nothing that a name or a book brings in.

use crate::{assessed, example, named, run};
use bookkit::{index, report, Entry, Form};
use books::case;

/// Elements that have no end.
const VOID: [&str; 1] = ["meta"];

/// Whether every element ends where it should, and no angle bracket stands alone.
fn assert_whole(markup: &str) {
    let mut open: Vec<&str> = Vec::new();
    for tag in markup.split('<').skip(1).filter(|tag| !tag.starts_with('!')) {
        let (inside, text) = tag.split_once('>').unwrap_or_else(|| panic!("no end: {tag}"));
        let name = inside.split([' ', '/']).find(|word| !word.is_empty()).expect("a name");
        match (inside.starts_with('/'), inside.ends_with('/') || VOID.contains(&name)) {
            (true, _) => assert_eq!(open.pop(), Some(name), "{tag}"),
            (false, true) => {}
            (false, false) => open.push(name),
        }
        assert_eq!(inside.matches('"').count() % 2, 0, "{tag}");
        assert!(!text.contains('>') || open.last() == Some(&"style"), "{tag}");
    }
    assert_eq!(open, [""; 0]);
}

fn all_forms(input: &[u8], name: &str) -> [String; 2] {
    [Form::Page, Form::Picture].map(|form| report(&named(name, input), form))
}

#[test]
fn every_element_ends() {
    let inputs = ["small-bank", "worked", "abroad", "listed-curves", "mistyped", "damaged"]
        .map(|name| example(&format!("{name}.input")));
    let generated = (0..150).map(|seed| case(seed).input());
    for input in inputs
        .into_iter()
        .chain([run("thirty-two-currencies"), run("empty-book"), vec![], vec![0; 70_000]])
        .chain(generated)
    {
        all_forms(&input, "a.input").iter().for_each(|markup| assert_whole(markup));
    }
}

#[test]
#[should_panic]
fn an_element_that_does_not_end_is_seen() {
    assert_whole("<p>one<b>two</p>");
}

#[test]
fn a_name_is_text() {
    let name = "<script>x</script><b a='1' b=\"2\">&amp;.input";
    let shown = "&lt;script&gt;x&lt;/script&gt;&lt;b a=&#39;1&#39; b=&quot;2&quot;&gt;&amp;amp;.input";
    for input in [example("small-bank.input"), example("mistyped.input")] {
        for markup in all_forms(&input, name) {
            assert_whole(&markup);
            assert!(markup.contains(shown) && !markup.contains("<b a") && !markup.contains("<script"), "{markup}");
        }
    }
    let entry = Entry { name: name.as_bytes().to_vec(), read: Ok(named(name, &example("small-bank.input"))) };
    let unread = Entry { name: name.as_bytes().to_vec(), read: Err(format!("it is {name}")) };
    let page = index(&[entry, unread]);
    assert_whole(&page);
    assert!(page.matches(shown).count() == 3 && !page.contains("<script"), "{page}");
}

/// The namespace is no address that is asked for, and a picture needs it.
#[test]
fn nothing_comes_from_elsewhere() {
    for input in [example("small-bank.input"), example("mistyped.input"), run("thirty-two-currencies")] {
        let [page, picture] = all_forms(&input, "a.input");
        let namespace = "xmlns=\"http://www.w3.org/2000/svg\"";
        assert_eq!((page.matches(namespace).count(), picture.matches(namespace).count()), (0, 1));
        for markup in [page, picture.replace(namespace, "")] {
            for word in [
                "http:",
                "https:",
                "src=",
                "@import",
                "url(",
                "<script",
                "<link",
                "<img",
                "javascript:",
                "onload=",
                "onclick=",
            ] {
                assert!(!markup.contains(word), "{word}");
            }
        }
    }
}

/// What the page's sheets bear at their foot binds them to their input.
#[test]
fn every_sheet_bears_the_digest() {
    let input = example("small-bank.input");
    let digest = bookkit::sha256(&input);
    assert!(
        report(&assessed(&input), Form::Page).contains(&format!("@bottom-left {{ content: \"SHA-256 {digest}\"; }}"))
    );
    assert!(!report(&assessed(&[0; 70_000]), Form::Page).contains("content: \"SHA-256"));
}

#[test]
fn the_picture_has_the_verdict_and_the_changes() {
    let picture = report(&assessed(&example("small-bank.input")), Form::Picture);
    let due = [
        "a.input: over the limit",
        "measure 3,446 ± 4",
        "limit 3,000.00",
        "Measure and limit, to scale",
        "Currency 2",
        "-3,480",
        "1,143",
    ];
    due.iter().for_each(|words| assert!(picture.contains(&format!(">{words}</text>")), "{words}"));
    assert!(!picture.contains("magnified"));
    let text = String::from_utf8(example("worked.txt")).expect("text").replace("4214126", "4214127");
    let close = report(&assessed(&crate::input(&text)), Form::Picture);
    assert!(close.contains("The same near the limit, magnified: it does not begin at 0</text>"));
    let refused = report(&assessed(&example("mistyped.input")), Form::Picture);
    assert!(refused.contains("Turned down with refusal 11") && refused.contains("[00 00 00 fa]"), "{refused}");
}
