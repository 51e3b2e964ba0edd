//! Why there is no answer.
use crate::Reason;
use std::fmt;

/// Why there is no answer.
#[derive(Clone, Copy, Debug, PartialEq, Eq)]
pub enum Error {
    /// The text is an invalid selector.
    NoSelector {
        /// The first byte that is wrong.
        place: usize,
        /// What is wrong with it.
        cause: Cause,
    },
    /// A label is that of no known encoding.
    NoEncoding,
    /// Lists are an invalid policy: [`Lists::refused_word`](crate::Lists::refused_word) says of which word.
    NoPolicy(Reason),
    /// A tag or an element can't be edited this way.
    NotChanged {
        /// Where it begins in the page.
        place: usize,
        /// Why.
        cause: Cause,
    },
    /// The page, or of a change what it is written down as while it is read, has more than 4294967295 bytes.
    TooLong,
    /// The tree of the page is far larger than the page: thousands of tags that are never closed, and are opened again in each of a
    /// hundred paragraphs, make such a tree.
    OutOfProportion,
    /// The base of links is no URL.
    NoUrl,
    /// With the tags changed the page has another tree, so its elements are changed by a call of their own.
    OtherTree,
    /// Memory ran out, or the numbers of 32 bits for the parts of a tree did.
    OutOfMemory,
}

impl fmt::Display for Error {
    fn fmt(&self, f: &mut fmt::Formatter<'_>) -> fmt::Result {
        match self {
            Error::NoSelector { place, cause } => {
                write!(f, "invalid selector: at byte {place}: {cause}")
            }
            Error::NoEncoding => f.write_str("unknown encoding"),
            Error::NoPolicy(reason) => write!(f, "invalid policy: {reason}"),
            Error::NotChanged { place, cause } => write!(f, "at byte {place}: {cause}"),
            Error::TooLong => f.write_str("the page is too long"),
            Error::OutOfProportion => f.write_str("the tree of the page is out of proportion"),
            Error::NoUrl => f.write_str("the base isn't a URL"),
            Error::OtherTree => f.write_str("with these values the page has another tree"),
            Error::OutOfMemory => f.write_str("out of memory"),
        }
    }
}

impl std::error::Error for Error {}

macro_rules! causes {
    ($($(#[$doc:meta])* $name:ident = $number:literal, $words:literal;)*) => {
        /// What is wrong with a selector, or with a change of a tag.
        #[derive(Clone, Copy, Debug, PartialEq, Eq)]
        #[non_exhaustive]
        pub enum Cause {
            $($(#[$doc])* $name,)*
            /// A cause that the library knows and this crate doesn't.
            Other(u8),
        }

        impl Cause {
            pub(crate) fn of_number(number: u8) -> Cause {
                match number {
                    $($number => Cause::$name,)*
                    other => Cause::Other(other),
                }
            }
        }

        impl fmt::Display for Cause {
            fn fmt(&self, f: &mut fmt::Formatter<'_>) -> fmt::Result {
                match self {
                    $(Cause::$name => f.write_str($words),)*
                    Cause::Other(number) => write!(f, "cause {number}"),
                }
            }
        }
    };
}

causes! {
    /// A bracket, a string or a comment that begins here isn't closed.
    Unclosed = 1, "opened here and never closed";
    /// A selector has to stand here.
    NoSelector = 2, "expected a selector";
    /// A name has to stand here.
    NoName = 3, "expected a name";
    /// `=` or one of `~= |= ^= $= *=` has to stand here, or a `]`.
    NoOperator = 4, "expected `=`, `~=`, `|=`, `^=`, `$=`, `*=` or `]`";
    /// A name or a string has to stand here.
    NoValue = 5, "expected a value";
    /// This flag is neither `i` nor `s`.
    NoFlag = 6, "expected the flag `i` or `s`";
    /// What stands here is no formula `an+b`, or doesn't end one.
    NoFormula = 7, "expected `an+b`, `odd` or `even`";
    /// This number is above 2147483647.
    LargeNumber = 8, "number above 2147483647";
    /// No pseudo-class has this name.
    NoPseudoClass = 9, "unknown pseudo-class";
    /// Pseudo-elements are no tags.
    PseudoElement = 10, "pseudo-elements match no element";
    /// No prefix of a namespace is known.
    Namespace = 11, "unknown namespace prefix";
    /// The pseudo-class needs an argument in brackets.
    NeedsArgument = 12, "expected an argument in parentheses";
    /// The pseudo-class takes no argument.
    TakesNone = 13, "this pseudo-class takes no argument";
    /// So many selectors wait here for those inside them that this one is too much.
    TooDeep = 14, "selectors nested too deeply";
    /// This byte can't stand here.
    Unexpected = 15, "unexpected text";
    /// The tokenizer by itself reads no start tag here, as in a `title` of an `svg`.
    NoStartTag = 16, "this element has no start tag";
    /// This key or this value can't be written in the tag that begins here.
    NotWritten = 17, "the new attribute or name can't be written in this tag";
    /// The page would be read otherwise than asked.
    ReadOtherwise = 18, "this edit would change how other parts of the page are read";
    /// The element isn't closed, is a tag alone, or it is a `body` or `html`, after which nothing can
    /// stand.
    NotMeant = 19, "this element can't be edited this way: its end tag is missing, or its kind doesn't allow it";
    /// The change of the element and that of another cut across each other.
    Across = 20, "this edit overlaps the edit of another element";
    /// What is put would stand behind the end of the page; none does.
    EndOfPage = 21, "nothing can be inserted after the end of the page";
    /// What is put can't stand there: markup in a raw text, or a text that would be read otherwise.
    NoContent = 22, "the new content or name can't be written there";
    /// A browser may read as markup a text with `&` or `<` in a `style`, `script` and the like, as it
    /// stands behind a `svg`, `math`, `frameset`, `template`, `noscript` or `select`: such a text
    /// would be put there, or the element would get such a name before such a text.
    Misread = 23, "a browser may read raw text as markup here";
    /// The selector matches an element that no tag stands for, as a `tbody` that browsers put in.
    Untagged = 24, "browsers add this element: it has no tag to edit";
    /// An element isn't whole, so its tag alone can be changed: what begins here stands in the bytes
    /// that it has by its end tags, and not in it in the tree that browsers build, or the other way
    /// round.
    NotWhole = 25, "only attributes of this element can be edited: what begins here is in it by its tags or in browsers, but not both";
}
