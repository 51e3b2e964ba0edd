//! Policies and their lists, words that are looked up, and texts and trees made safe.
use crate::case::Case;
use crate::stop::{Stop, value};
use crate::{Named, measured};
use tl_safe_fit::WordIndex;
use tl_tree::{Flags, Tree};
use tl_tree_safe::{
    ListTexts, Lists, Policy, WordLists, lines_of, sanitize, sanitize_fragment,
    sanitize_fragment_telling, sanitize_telling,
};

// What is called.
#[derive(Clone, Copy)]
enum PolicyCall {
    Sanitize,
    SanitizeFragment,
    SanitizeTelling,
    Tell,
    Policy,
    Lists,
    Lines,
    Index,
}

// The name of a call, the call, a page or a word, and what is made of it.
type Row = (&'static str, PolicyCall, &'static str, &'static str);

#[rattlefmt::skip]
static ROWS: [Row; 14] = [
    ("tl_tree_safe::sanitize, nothing", PolicyCall::Sanitize, "<script>x</script>", ""),
    ("tl_tree_safe::sanitize", PolicyCall::Sanitize, "<p id=user-i onclick=x>a</p><script>y</script><a href=\"https://c\">d</a>", "<p id=\"user-i\">a</p><a href=\"https://c\">d</a>"),
    ("sanitize_fragment, nothing", PolicyCall::SanitizeFragment, "<script>x</script>", ""),
    ("sanitize_fragment", PolicyCall::SanitizeFragment, "<p title=\"a&#13;b\">c</p>&#13;d", "<p title=\"a b\">c</p> d"),
    ("Policy::new", PolicyCall::Policy, "b,p", ""),
    ("Policy::new, a word that is refused", PolicyCall::Policy, "b,script", "script"),
    ("WordLists::new, lists that are not said", PolicyCall::Lists, "", "wbr"),
    ("WordLists::new", PolicyCall::Lists, "b,,p", "p"),
    ("lines_of lists", PolicyCall::Lines, "b", "--tags b\n--keys title\n--link-keys\n--links\n--classes\n--prefix user-\n"),
    ("WordIndex::new", PolicyCall::Index, "b", "p"),
    ("sanitize_telling, nothing goes", PolicyCall::SanitizeTelling, "<p>a</p>", "<p>a</p>"),
    ("sanitize_telling", PolicyCall::SanitizeTelling, "<p onclick=x>a</p><script>y</script>", "<p>a</p>"),
    ("sanitize_fragment_telling, nothing goes", PolicyCall::Tell, "<p>a</p>", ""),
    ("sanitize_fragment_telling", PolicyCall::Tell, "<p onclick=x>a</p>\n<script>y</script>", "f:1:1: <p onclick>: the attribute isn't listed\nf:2:1: <script>: what is in it isn't shown as markup\n"),
];

/// A call of a policy, if there is one of this number.
pub fn call(number: usize, case: &mut Case) -> Option<Named> {
    let row = ROWS.get(number)?;
    let (name, call, text, wanted) = *row;
    let answer = match call {
        PolicyCall::Sanitize => make_tree_safe(text, wanted, case),
        PolicyCall::SanitizeFragment => make_safe(text, wanted, case),
        PolicyCall::SanitizeTelling => make_tree_safe_telling(text, wanted, case),
        PolicyCall::Tell => tell(text, wanted, case),
        PolicyCall::Policy => judge(text, wanted, case),
        PolicyCall::Lists => read_lists(text, wanted, case),
        PolicyCall::Lines => write_lists(text, wanted, case),
        PolicyCall::Index => index(text, wanted, case),
    };
    Some((name, answer))
}

static FLAGS: Flags = Flags {
    is_scripting: false,
    counts_search: true,
};

fn make_tree_safe(page: &str, wanted: &str, case: &mut Case) -> Result<(), Stop> {
    let policy = Policy::blog();
    let tree = Tree::read(case.alloc(), page.as_bytes(), FLAGS)?;
    let mut out = Vec::new(case.alloc());
    let answer = measured!(case, sanitize(case.alloc(), &policy, &tree, &mut out));
    answer?;
    value(out.as_slice() == wanted.as_bytes())
}

fn make_safe(text: &str, wanted: &str, case: &mut Case) -> Result<(), Stop> {
    let policy = Policy::blog();
    let answer = measured!(
        case,
        sanitize_fragment(case.alloc(), &policy, text.as_bytes())
    );
    value(answer?.as_slice() == wanted.as_bytes())
}

fn make_tree_safe_telling(page: &str, wanted: &str, case: &mut Case) -> Result<(), Stop> {
    let policy = Policy::blog();
    let tree = Tree::read(case.alloc(), page.as_bytes(), FLAGS)?;
    let mut out = Vec::new(case.alloc());
    let mut told = Vec::new(case.alloc());
    let answer = measured!(
        case,
        sanitize_telling(case.alloc(), &policy, &tree, &mut out, &mut told)
    );
    answer?;
    value(out.as_slice() == wanted.as_bytes())
}

// The lines that tell what goes of a text in a file `f` are wanted.
fn tell(text: &str, wanted: &str, case: &mut Case) -> Result<(), Stop> {
    let policy = Policy::blog();
    let answer = measured!(
        case,
        sanitize_fragment_telling(case.alloc(), &policy, text.as_bytes(), "f")
    );
    value(answer?.lines.as_slice() == wanted.as_bytes())
}

// What stands for lists of these tags, with links of no kind; where none are said, those of a blog.
fn texts(tags: &'static str) -> ListTexts<'static> {
    let is_said = !tags.is_empty();
    ListTexts {
        own: Lists::BLOG,
        tags: is_said.then_some(tags),
        keys: is_said.then_some("title"),
        link_keys: is_said.then_some(""),
        link_prefixes: is_said.then_some(""),
        relative_links: false,
        nofollow_links: false,
        classes: is_said.then_some(""),
        id_prefix: None,
    }
}

// The word that is refused is wanted, if there is one.
fn judge(tags: &'static str, wanted: &str, case: &mut Case) -> Result<(), Stop> {
    let words = WordLists::new(case.alloc(), &texts(tags))?;
    let answer = measured!(case, Policy::new(words.lists()));
    match answer {
        Ok(_) => value(wanted.is_empty()),
        Err(error) => value(error.word == wanted),
    }
}

// The last of the tags is wanted.
fn read_lists(tags: &'static str, wanted: &str, case: &mut Case) -> Result<(), Stop> {
    let texts = texts(tags);
    let answer = measured!(case, WordLists::new(case.alloc(), &texts));
    let words = answer?;
    value(words.lists().tags.last() == Some(&wanted))
}

fn write_lists(tags: &'static str, wanted: &str, case: &mut Case) -> Result<(), Stop> {
    let words = WordLists::new(case.alloc(), &texts(tags))?;
    let answer = measured!(case, lines_of(case.alloc(), &words.lists()));
    value(answer?.as_str() == wanted)
}

// One of the words is wanted, and no other.
fn index(word: &'static str, other: &str, case: &mut Case) -> Result<(), Stop> {
    let answer = measured!(case, WordIndex::new(case.alloc(), &[word]));
    let words = answer?;
    value(words.contains(word.as_bytes()) && !words.contains(other.as_bytes()))
}
