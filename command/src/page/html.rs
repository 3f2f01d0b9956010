//! The pieces that a page is put together of.
use crate::outside::shown;

const STYLE: &str = include_str!("style.css");

/// A whole page. It may load nothing, and it may run nothing.
pub fn document(title: &str, sections: &[String]) -> String {
    let title = escaped(title);
    format!(
        "<!DOCTYPE html>\n<html lang=\"en\">\n<head>\n<meta charset=\"utf-8\">\n\
         <meta http-equiv=\"Content-Security-Policy\" content=\"default-src 'none'; style-src 'unsafe-inline'\">\n\
         <meta name=\"viewport\" content=\"width=device-width, initial-scale=1\">\n\
         <title>{title}</title>\n<style>\n{STYLE}</style>\n</head>\n<body>\n<main>\n<h1>{title}</h1>\n{}</main>\n\
         <footer><p>Made by carolsedge {}. The rule is docs/RULE.md: what stands in quotes here is said there, in \
         these words, in the section that is named.</p></footer>\n</body>\n</html>\n",
        sections.concat(),
        env!("CARGO_PKG_VERSION"),
    )
}

/// A text as it may stand in a page: no letter of it is read as a mark, and none is hidden.
pub fn escaped(text: &str) -> String {
    let mut out = String::new();
    for letter in shown(text).chars() {
        match letter {
            '&' => out += "&amp;",
            '<' => out += "&lt;",
            '>' => out += "&gt;",
            '"' => out += "&quot;",
            '\'' => out += "&#39;",
            _ => out.push(letter),
        }
    }
    out
}

/// A part of the page with a heading.
pub fn section(id: &str, heading: &str, parts: &[String]) -> String {
    format!(
        "<section id=\"{id}\" aria-labelledby=\"{id}-h\">\n<h2 id=\"{id}-h\">{heading}</h2>\n{}</section>\n",
        parts.concat()
    )
}

pub fn paragraph(text: &str) -> String {
    format!("<p>{text}</p>\n")
}

/// Terms, each with its texts.
pub fn terms(entries: &[(&str, Vec<String>)]) -> String {
    let mut text = String::from("<dl>\n");
    for (term, texts) in entries {
        text += &format!("<div><dt>{term}</dt>{}</div>\n", texts.concat());
    }
    text + "</dl>\n"
}

/// A text behind a term.
pub fn said(text: &str) -> String {
    format!("<dd>{text}</dd>")
}

/// A figure, which is found by its name.
pub fn figure(name: &str, figure: &str) -> String {
    format!("<b id=\"{name}\">{figure}</b>")
}

/// A table, a heading for each column; it scrolls by itself where the window is too narrow for it.
pub fn table(id: &str, caption: &str, headings: &[&str], rows: &[Vec<String>]) -> String {
    let cells = |row: &[String]| row.iter().map(|cell| format!("<td>{cell}</td>")).collect::<String>();
    let headings: String = headings.iter().map(|heading| format!("<th scope=\"col\">{heading}</th>")).collect();
    let mut text = format!(
        "<div class=\"scroll\" role=\"region\" tabindex=\"0\" aria-label=\"{caption}\">\n<table id=\"{id}-rows\">\n\
         <caption>{caption}</caption>\n<thead><tr>{headings}</tr></thead>\n<tbody>\n"
    );
    for (first, others) in rows.iter().filter_map(|row| row.split_first()) {
        text += &format!("<tr><th scope=\"row\">{first}</th>{}</tr>\n", cells(others));
    }
    text + "</tbody>\n</table>\n</div>\n"
}
