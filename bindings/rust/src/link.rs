//! Links of pages, and where they lead.
use crate::calls;
use crate::document::lent_text;
use crate::{Document, Error, Node};

/// A URL in an attribute.
#[derive(Clone, Debug, PartialEq, Eq, Hash)]
pub struct Link<'d> {
    /// The element.
    pub node: Node<'d>,
    /// The key of the attribute.
    pub key: String,
    /// The URL as it stands there.
    pub url: String,
    /// Where it leads from the base that was said; `None` where none was, or where it is no URL.
    pub target: Option<String>,
}

/// The links of a page.
pub(crate) fn links<'d>(
    document: &'d Document,
    base: Option<&str>,
) -> Result<Vec<Link<'d>>, Error> {
    let base = base.map(|it| base_of(document, it)).transpose()?;
    let mut links = document
        .answered(
            |bytes| links_in(document, bytes),
            |handle, out, room, needed| unsafe {
                calls::tl_document_links(handle, out, room, needed)
            },
        )
        .map_err(calls::error_of)?;
    if let Some(base) = base {
        for link in &mut links {
            link.target = join_url(&base, &link.url)?;
        }
    }
    Ok(links)
}

// The base of the page's links, where the page has this URL.
fn base_of(document: &Document, page: &str) -> Result<String, Error> {
    let own = join_url(page, "")?.ok_or(Error::NoUrl)?;
    let element = document.first("base[href]")?;
    let Some(href) = element.and_then(|it| it.attr("href")) else {
        return Ok(own);
    };
    let there = join_url(&own, href)?;
    let is_refused = |it: &String| it.starts_with("data:") || it.starts_with("javascript:");
    Ok(there.filter(|it| !is_refused(it)).unwrap_or(own))
}

/// Where a link leads from a base, by the URL standard; `None` where one of them is no URL.
///
/// ```
/// assert_eq!(tlhtml::join_url("https://a.org/b/c", "../d")?.as_deref(), Some("https://a.org/d"));
/// # Ok::<(), tlhtml::Error>(())
/// ```
pub fn join_url(base: &str, link: &str) -> Result<Option<String>, Error> {
    let ((base, base_len), (at, len)) = (lent_text(base), lent_text(link));
    let joined = calls::text(base_len + len + 64, |out, room, needed| unsafe {
        calls::tl_join_url(base, base_len, at, len, out, room, needed)
    });
    match joined {
        Ok(url) => Ok(Some(url)),
        Err(calls::REFUSED) => Ok(None),
        Err(status) => Err(calls::error_of(status)),
    }
}

// The links that `tl_document_links` puts, in order.
fn links_in<'d>(document: &'d Document, mut bytes: &[u8]) -> Result<Vec<Link<'d>>, u8> {
    let mut links = Vec::new();
    while !bytes.is_empty() {
        let number = calls::number_at(bytes, 0);
        let (key_len, url_len) = (calls::number_at(bytes, 8), calls::number_at(bytes, 16));
        let (key, rest) = bytes[24..].split_at(key_len);
        let (url, rest) = rest.split_at(url_len);
        let link = Link {
            node: Node::new(document, number as u32),
            key: calls::text_in(key)?,
            url: calls::text_in(url)?,
            target: None,
        };
        calls::push(&mut links, link)?;
        bytes = rest;
    }
    Ok(links)
}
