//! Broken pages.

/// Pages that aim at what a reader may get wrong: tags, attributes, comments and doctypes that
/// don't end or end twice, quotes, names and blanks where none should stand, and characters of
/// several bytes anywhere.
pub static PAGES: [&str; 60] = [
    // Brackets.
    "<<<<<<<<<<",
    ">>>><<<<>>>>",
    "<a<b<c<d",
    "<a<b>c</a<d>e",
    "a<>b</>c<><></></>",
    "<<p>>x<</p>>",
    "< < <p> > >x</ p></p >",
    "<!<!<!<!",
    "</</</</</a></a></a",
    "<a></a></a></a></b></>",
    // Tags that are crossed, closed twice, or never opened.
    "<a><b><c><d></a></b></c></d>",
    "<a><b></a><c></b><d></c></d>",
    "<p><p><p></p></p></p></p></p>x",
    "<br></br><br/></br/><img></img>x</hr>",
    "<td><table><tr></table></tr></td>",
    "<a><A></a></A><a></A></a>",
    "<command>x<command>y</command>z",
    "<p>a<br>b<hr/>c<img src=x>d<area>e</p>f",
    // Attributes.
    "<p a a a b=1 b=2 b c=1 c c=>x",
    "<p a= b = c =d e= 'f' g=\"h\"i>x",
    "<p a=\"'\" b='\"' c='' d=\"\" e=\"<>\" f='</p>'>x",
    "<p a=\"x>y</p>\n<p b='z\">w</p>'>v",
    "<p =x ==y =\"z\" '' \"\" \"a\"b>c",
    "<p id id= id='' id=a ID=b class class=\"\" class='k k' class=l>x",
    "<p a\tb\rc\u{c}d\ne>x</p>",
    "<p a=\tb\tc=\rd>x</p>",
    "<p a/b c/ d=/ e=/f /g>x",
    "<p a=1 b=2 c=3 d=4 e=5 f=6 g=7 h=8 i=9 j=10 k=11 l=12 m=13 n=14 o=15 p=16 q=17 r=18>x",
    "<p \u{e9}=\u{e9} \u{1f600} a\u{e9}b=\"c\u{1f600}d\">\u{e9}",
    "<p :a +b -c _d 0=1 a:b+c-d_e=f>x",
    // Slashes.
    "</ //></a/b></a//></a/ >/>",
    "<a/><b //><c/ /><d /e><f/ g>x",
    "<br/ ><br / ><br / /><br /x>y",
    "<a b=c/><a b='c'/><a b=\"c\"/d><a b/c=d>x",
    // Comments.
    "<!-->a<!--->b<!---->c<!----->d<!------>e",
    "<!-- <!-- --> --> <!-- -- > --! -- ->",
    "<!-- <p> --><p><!-- </p> --></p><!--",
    "< !-- a -->< ! -- b --><\n!-- c --><! -- d -->",
    "<!--\u{e9}--><!-\u{e9}-><!\u{e9}--><--\u{e9}-->",
    "<!-<!--<!---<!----<!-----",
    "a--><!--b-->-->c<!--d--!>e-->",
    // Doctypes.
    "<!doctype html><!DOCTYPE HTML PUBLIC \"-//W3C//DTD HTML 4.01//EN\" \"x\">",
    "<!doctype><!doctype ><!doctypehtml><!doctype  html",
    "<!DocType hTmL SYSTEM 'about:legacy-compat'>x<!doctype xhtml>",
    "<!DOCTYPE html PUBLIC \"-//W3C//DTD XHTML 1.0 Strict//EN\">\n<html></html>",
    "<!html><![CDATA[<p>]]><?xml version=\"1.0\"?><%= a %>",
    // Text that looks like markup, and script.
    "<script>if (a < b && c > d) { x = \"</p>\"; }</script>",
    "<style>a > b { content: '<' }</style><textarea></p></textarea>",
    "a &lt; b &amp; c &#60; d &#x3c; e &nosuch; & <",
    "1 < 2, 2 > 1, 3 <= 4, 5 <3",
    // Characters.
    "\u{feff}<p>\u{feff}</p>",
    "\u{0}<\u{0}p \u{0}=\u{0}>\u{0}</\u{0}p>",
    "<\u{e9}>\u{e9}</\u{e9}><p\u{e9}>x</p\u{e9}>",
    "\u{1f468}\u{200d}\u{1f469}<b>\u{1f467}</b>\u{10ffff}\u{7f}\u{80}\u{7ff}\u{800}\u{ffff}",
    "<p class=\"\u{a0}k\u{2003}l\u{85}m\tn\u{c}o\">x",
    // Blanks.
    "<\n\n \n<p\n\n a\n=\n'b'\n>\n\n</\np\n>\n",
    "   \n\t\r\n   ",
    "\r\n<p>\r\n</p>\r\n",
    // A page as people write it, and one that is all of it.
    "<ul><li>a<li>b<ul><li>c</ul><li>d</ul><p>e<p>f<table><tr><td>g<td>h</table>",
    "<div id=a class='k l'><p>x<!-- y --><br><a href=\"/z?b=c&d\" data-e>w</a></div>\u{e9}<",
];
