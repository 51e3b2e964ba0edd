//! Policies, and lists of one's own.
use crate::Error;
use crate::calls;
use crate::removal::{Removal, removals_in};
use std::fmt;

/// What is kept of a page.
#[derive(Clone, Copy, Debug, Default, PartialEq, Eq)]
pub enum Policy {
    /// For the text of a blog, as [`sanitize`](crate::sanitize) keeps it.
    #[default]
    Blog,
    /// For comments of readers: emphasis, quotes, lists and code, and links to the web; no headings, pictures and names.
    Comments,
    /// For documents: tables and the parts of a document too, and pictures and links beside the page.
    Documents,
}

/// What a policy keeps of a page.
///
/// ```
/// use tlhtml::{Policy, sanitize_by};
/// assert_eq!(sanitize_by(Policy::Comments, "<h1>x</h1><b>y")?, "x<b>y</b>");
/// # Ok::<(), tlhtml::Error>(())
/// ```
pub fn sanitize_by(policy: Policy, page: &str) -> Result<String, Error> {
    calls::text(calls::room_of(page), |out, room, needed| unsafe {
        calls::tl_sanitize_html_by(policy as u8, page.as_ptr(), page.len(), out, room, needed)
    })
    .map_err(|status| calls::page_error_of(status, page))
}

impl Policy {
    /// Its lists, of which some may be said anew. A list that is said replaces the policy's own; one that begins with `+`
    /// or `-`, as "+img,-b", adds words to that and takes others away.
    ///
    /// ```
    /// use tlhtml::Policy;
    /// let lists = Policy::Comments.lists().tags("p,a").relative_links().nofollow_links();
    /// assert_eq!(lists.sanitize("<p>x<a href=y.html>z</a><b>u")?, "<p>x<a rel=\"nofollow noopener\" href=\"y.html\">z</a>u</p>");
    /// # Ok::<(), tlhtml::Error>(())
    /// ```
    pub fn lists<'w>(self) -> Lists<'w> {
        Lists {
            policy: self,
            tags: None,
            keys: None,
            link_keys: None,
            link_prefixes: None,
            classes: None,
            id_prefix: None,
            relative_links: false,
            nofollow_links: false,
        }
    }
}

/// A policy with lists of one's own: words with commas between them, as "a,b,p". Empty words are left out.
#[derive(Clone, Copy, Debug, PartialEq, Eq)]
pub struct Lists<'w> {
    policy: Policy,
    tags: Option<&'w str>,
    keys: Option<&'w str>,
    link_keys: Option<&'w str>,
    link_prefixes: Option<&'w str>,
    classes: Option<&'w str>,
    id_prefix: Option<&'w str>,
    relative_links: bool,
    nofollow_links: bool,
}

impl<'w> Lists<'w> {
    /// The tags that may stand.
    pub fn tags(self, words: &'w str) -> Lists<'w> {
        Lists {
            tags: Some(words),
            ..self
        }
    }

    /// The keys of attributes that may stand.
    pub fn keys(self, words: &'w str) -> Lists<'w> {
        Lists {
            keys: Some(words),
            ..self
        }
    }

    /// The keys that hold links.
    pub fn link_keys(self, words: &'w str) -> Lists<'w> {
        Lists {
            link_keys: Some(words),
            ..self
        }
    }

    /// What links begin with, as "https://,/".
    pub fn link_prefixes(self, words: &'w str) -> Lists<'w> {
        Lists {
            link_prefixes: Some(words),
            ..self
        }
    }

    /// The patterns of classes that may stand, as "language-*,hljs": a `*` at the end of one stands for any characters.
    pub fn classes(self, patterns: &'w str) -> Lists<'w> {
        Lists {
            classes: Some(patterns),
            ..self
        }
    }

    /// What is put in front of values of `id` and `name` and of links to them: one word.
    pub fn id_prefix(self, word: &'w str) -> Lists<'w> {
        Lists {
            id_prefix: Some(word),
            ..self
        }
    }

    /// Links beside the page may stand too, as `x.png`.
    pub fn relative_links(self) -> Lists<'w> {
        Lists {
            relative_links: true,
            ..self
        }
    }

    /// Each link is marked with `rel="nofollow noopener"`; `rel` is among the keys then.
    pub fn nofollow_links(self) -> Lists<'w> {
        Lists {
            nofollow_links: true,
            ..self
        }
    }

    /// What a policy of these lists keeps of a page. Lists that are no policy are [`Error::NoPolicy`].
    pub fn sanitize(&self, page: &str) -> Result<String, Error> {
        let (lists, mut cause) = (self.lent(), 0);
        let safe = calls::text(calls::room_of(page), |out, room, needed| unsafe {
            let (at, len) = (page.as_ptr(), page.len());
            calls::tl_sanitize_html_with(&lists, at, len, out, room, needed, &mut cause)
        });
        safe.map_err(|status| refusal(status, cause, page))
    }

    /// What goes of a page by a policy of these lists, in the order of the page, so that its author can be told: each element that goes,
    /// but those in one that goes whole, and of each that stays the attributes that go. Values that change aren't told, nor is an element
    /// that nobody wrote, as a `tbody` that browsers put in.
    ///
    /// ```
    /// use tlhtml::Policy;
    /// let page = "<p onclick=f()>x\n <script>y</script>";
    /// let removed = Policy::Blog.lists().removed(page)?;
    /// assert_eq!(removed[0].key.as_deref(), Some("onclick"));
    /// assert_eq!((removed[1].name.as_str(), removed[1].line_of(page)), ("script", (2, 1)));
    /// assert_eq!(removed[1].why.to_string(), "what is in it isn't shown as markup");
    /// # Ok::<(), tlhtml::Error>(())
    /// ```
    pub fn removed(&self, page: &str) -> Result<Vec<Removal>, Error> {
        let (lists, mut cause) = (self.lent(), 0);
        let told: Result<Vec<u8>, u8> = calls::items(64, |out, room, needed| unsafe {
            let (at, len) = (page.as_ptr(), page.len());
            calls::tl_removed_html(&lists, at, len, out, room, needed, &mut cause)
        });
        let told = told.map_err(|status| refusal(status, cause, page))?;
        removals_in(page, &told).map_err(calls::error_of)
    }

    /// The options of `tl sanitize` that say these lists, one on each line, so that they can be shown; also those of a policy that is there.
    ///
    /// ```
    /// use tlhtml::Policy;
    /// let lines = Policy::Comments.lists().tags("a,b").options()?;
    /// assert_eq!(lines.lines().next(), Some("--tags a,b"));
    /// # Ok::<(), tlhtml::Error>(())
    /// ```
    pub fn options(&self) -> Result<String, Error> {
        let lists = self.lent();
        calls::text(1024, |out, room, needed| unsafe {
            calls::tl_list_options(&lists, out, room, needed)
        })
        .map_err(calls::error_of)
    }

    /// The first word for which these lists are no policy, and why; `None` where they are one.
    ///
    /// ```
    /// use tlhtml::{Policy, Reason};
    /// let lists = Policy::Blog.lists().tags("p,script");
    /// assert_eq!(lists.refused_word()?, Some(("script".to_string(), Reason::OpaqueTag)));
    /// # Ok::<(), tlhtml::Error>(())
    /// ```
    pub fn refused_word(&self) -> Result<Option<(String, Reason)>, Error> {
        let (lists, mut cause) = (self.lent(), 0);
        let word = calls::text(64, |out, room, needed| unsafe {
            calls::tl_refused_word(&lists, out, room, needed, &mut cause)
        });
        match word {
            Ok(word) => Ok(Some((word, Reason::of_number(cause)))),
            Err(calls::REFUSED) => Ok(None),
            Err(status) => Err(calls::error_of(status)),
        }
    }

    fn lent(&self) -> calls::Lists {
        calls::Lists {
            tags: calls::List::new(self.tags),
            keys: calls::List::new(self.keys),
            link_keys: calls::List::new(self.link_keys),
            link_prefixes: calls::List::new(self.link_prefixes),
            classes: calls::List::new(self.classes),
            id_prefix: calls::List::new(self.id_prefix),
            relative_links: self.relative_links,
            nofollow_links: self.nofollow_links,
            policy: self.policy as u8,
        }
    }
}

// Why there is nothing of a page: its lists are no policy, for this cause, or what the status says.
fn refusal(status: u8, cause: u8, page: &str) -> Error {
    match cause {
        0 => calls::page_error_of(status, page),
        cause => Error::NoPolicy(Reason::of_number(cause)),
    }
}

macro_rules! reasons {
    ($($(#[$doc:meta])* $name:ident = $number:literal, $words:literal;)*) => {
        /// Why no policy can allow a word. Each says too in which list the word stands.
        #[derive(Clone, Copy, Debug, PartialEq, Eq)]
        #[non_exhaustive]
        pub enum Reason {
            $($(#[$doc])* $name,)*
            /// A reason that the library knows and this crate doesn't.
            Other(u8),
        }

        impl Reason {
            fn of_number(number: u8) -> Reason {
                match number {
                    $($number => Reason::$name,)*
                    other => Reason::Other(other),
                }
            }
        }

        impl fmt::Display for Reason {
            fn fmt(&self, f: &mut fmt::Formatter<'_>) -> fmt::Result {
                match self {
                    $(Reason::$name => f.write_str($words),)*
                    Reason::Other(number) => write!(f, "reason {number}"),
                }
            }
        }
    };
}

reasons! {
    /// A name of a tag is a letter of a-z, and then letters and digits.
    MalformedTag = 1, "invalid tag name: expected a letter a-z, then letters and digits";
    /// What stands in this tag is no markup of HTML.
    OpaqueTag = 2, "a policy can't allow this element: its content isn't HTML markup";
    /// This tag changes what is around it, or loads what is no page.
    StructuralTag = 3, "a policy can't allow this element: it affects the page around it, or loads other content";
    /// A key is a letter of a-z, and then letters and `-`.
    MalformedKey = 4, "invalid attribute name: expected a letter a-z, then letters and `-`";
    /// The value of this key is a script.
    ScriptKey = 5, "a policy can't allow this attribute: its value is a script";
    /// The value of this key is no name, text or link.
    ActiveKey = 6, "a policy can't allow this attribute: its value isn't a name, text or URL";
    /// This key holds links, and is no link key.
    LinkKey = 7, "the value of this attribute is a URL, so it has to be a link attribute too";
    /// Links begin with printable ASCII without spaces, `"`, `<` and `>`.
    MalformedLink = 8, "invalid link prefix: expected printable ASCII without spaces, `\"`, `<` and `>`";
    /// Links that begin so are programs or documents.
    ActiveScheme = 9, "URLs that begin so are programs or documents";
    /// Links begin with a scheme and its `:`, or with `/`, `#`, `?` or `.`.
    NoScheme = 10, "invalid link prefix: expected a scheme with its `:`, or `/`, `#`, `?` or `.` first";
    /// A prefix of names is a letter of a-z, and then letters and `-`.
    MalformedPrefix = 11, "invalid prefix: expected a letter a-z, then letters and `-`";
    /// Links are marked at `rel`, which is no listed key, or a link key.
    UnlistedMark = 12, "links can't be marked with this attribute: it isn't allowed, or is a link attribute";
    /// `tbody`, `thead` or `tfoot` has to be allowed too, or rows lose their text.
    NoTableBody = 13, "`tbody`, `thead` or `tfoot` has to be allowed too, or rows lose their text";
    /// `tr` has to be allowed too, or rows lose their text.
    NoRow = 14, "`tr` has to be allowed too, or rows lose their text";
    /// `td` or `th` has to be allowed too, or cells lose their text.
    NoCell = 15, "`td` or `th` has to be allowed too, or cells lose their text";
    /// `caption` has to be allowed too, or captions lose their text.
    NoCaption = 16, "`caption` has to be allowed too, or captions lose their text";
    /// `table` has to be allowed too, as this element belongs in one.
    NoTable = 17, "`table` has to be allowed too, as this element belongs in one";
    /// A pattern of classes is a word without spaces and `"`, with a `*` at its end alone.
    MalformedClass = 18, "invalid class pattern: expected no spaces and no `\"`, and `*` only at the end";
}
