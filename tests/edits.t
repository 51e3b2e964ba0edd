Edits of pages in their own bytes: what `tl set` and its like write, where, and with which status.

  $ printf '<UL>\n<LI><A HREF=/x>a</a> &am<b CLASS=k>p;' >page
  $ tl set a href /y page
  <UL>
  <LI><A HREF="/y">a</a> &am<b CLASS=k>p; (no-eol)
  $ tl set 'a, .k' TITLE 'q"&<' <page
  <UL>
  <LI><A title="q&quot;&amp;&lt;" HREF=/x>a</a> &am<b title="q&quot;&amp;&lt;" CLASS=k>p; (no-eol)
  $ printf '<noscript><img alt=x></noscript>' | tl set img alt '</noscript><img src=x onerror=f()>'
  <noscript><img alt="&lt;/noscript&gt;&lt;img src=x onerror=f()&gt;"></noscript> (no-eol)
  $ tl set a title ' x ' <page
  <UL>
  <LI><A title=" x " HREF=/x>a</a> &am<b CLASS=k>p; (no-eol)
  $ tl unset '[class]' class page
  <UL>
  <LI><A HREF=/x>a</a> &am<b>p; (no-eol)
  $ tl unset a class page | cmp - page
  $ printf '<a k=1 b="x"K=2/><p k/><i b="1"k=2 =c>' | tl unset '[k]' K
  <a b="x"><p /><i b="1"/ =c> (no-eol)
  $ printf '<br k="v"/><br k=v/><br k/>' | tl unset br k
  <br /><br><br /> (no-eol)
  $ tl set i k v page | cmp - page
  $ tl set i k v page >/dev/null
  [1]
  $ printf '<img src=x>' | tl set img alt ''
  <img alt="" src=x> (no-eol)
  $ printf '<img alt=y src=x>' | tl set img alt ''
  <img alt="" src=x> (no-eol)

What is found and has nothing to change is found.

  $ printf '<p k="v">x' | tl set p k v
  <p k="v">x (no-eol)
  $ printf '<p>x' | tl unset p k
  <p>x (no-eol)
  $ tl unset -i a class page
  $ tl set -i i k v page
  [1]
  $ printf '\357\273\277<p id=1 ID=2>\r\n' | tl set p id 3 | od -An -c | tr -d ' \n'
  357273277<pid="3"ID=2>\r\n (no-eol)

What would change is told by file, line and column.

  $ tl set --dry-run 'a, b' k v page
  page:2:5
  page:2:25
  $ tl unset --dry-run '*' k - <page
  -:1:1
  -:2:1
  -:2:5
  -:2:25
  $ tl set --dry-run i k v page
  [1]

Values made of old ones: each other byte stays, and a tag whose value stays is as it was. No key is put where none is, but by --add-word and --from.

  $ printf '<A HREF=/a?x=1&amp;y>x</A>\n<a href="http://b" >y</a><a>z\n' >links
  $ tl set a href --prefix 'https://c' links
  <A HREF="https://c/a?x=1&amp;y">x</A>
  <a href="https://chttp://b" >y</a><a>z
  $ tl set a href --replace '^http:' https: <links
  <A HREF=/a?x=1&amp;y>x</A>
  <a href="https://b" >y</a><a>z
  $ tl set a href --replace '[?](\w)=(\d)' '#$2$1' links
  <A HREF="/a#1x&amp;y">x</A>
  <a href="http://b" >y</a><a>z
  $ tl set a href --literal --replace '?x' '$1' links
  <A HREF="/a$1=1&amp;y">x</A>
  <a href="http://b" >y</a><a>z
  $ tl set a href --suffix '&' links
  <A HREF="/a?x=1&amp;y&amp;">x</A>
  <a href="http://b&amp;" >y</a><a>z
  $ tl set a title --from HREF links
  <A title="/a?x=1&amp;y" HREF=/a?x=1&amp;y>x</A>
  <a title="http://b" href="http://b" >y</a><a>z
  $ tl set a class --add-word out links
  <A class="out" HREF=/a?x=1&amp;y>x</A>
  <a class="out" href="http://b" >y</a><a class="out">z
  $ printf '<p class="a b"><p class=" b  c"><p class=bb><p>' | tl set p class --add-word b
  <p class="a b"><p class=" b  c"><p class="bb b"><p class="b"> (no-eol)
  $ printf '<p class="a b"><p class=" b  c"><p class=b><p>' | tl set p class --remove-word b
  <p class="a"><p class="c"><p class=""><p> (no-eol)

  $ printf '<a href="http://a.org/?p=1&amp;q">x</a><A HREF=/b CLASS=k>y</A>' >links.html
  $ tl set a href --replace '^http:' https: links.html
  <a href="https://a.org/?p=1&amp;q">x</a><A HREF=/b CLASS=k>y</A> (no-eol)
  $ tl set '[href^="/"]' href --prefix https://b.org links.html
  <a href="http://a.org/?p=1&amp;q">x</a><A HREF="https://b.org/b" CLASS=k>y</A> (no-eol)
  $ tl set a class --add-word out links.html
  <a class="out" href="http://a.org/?p=1&amp;q">x</a><A HREF=/b CLASS="k out">y</A> (no-eol)

Keys are those of the tag, in any case, in elements of SVG too.

  $ printf '<svg viewBox="0 0 1 1"><use xlink:href="#a" Href=b /></svg>' >icon
  $ tl set svg VIEWBOX --replace ' 1' ' 2' icon
  <svg viewBox="0 0 2 2"><use xlink:href="#a" Href=b /></svg> (no-eol)
  $ tl set use xlink:href --prefix icons.svg icon
  <svg viewBox="0 0 1 1"><use xlink:href="icons.svg#a" Href=b /></svg> (no-eol)
  $ tl set use href --from xlink:href icon
  <svg viewBox="0 0 1 1"><use xlink:href="#a" Href="#a" /></svg> (no-eol)

What changes is told; a file whose bytes stay isn't written, and where nothing changes the status is 1.

  $ tl set --dry-run a href --replace '^http:' https: links
  links:2:1
  $ tl set -i a href --replace '^http:' https: links
  $ cat links
  <A HREF=/a?x=1&amp;y>x</A>
  <a href="https://b" >y</a><a>z
  $ touch -d 2000-01-01 links
  $ tl set -i a href --replace '^http:' https: links
  [1]
  $ tl set -i '[href^=https]' href https://b links
  $ date -r links +%Y
  2000
  $ printf '<b class=x><p>1</b>2' | tl set b class --suffix y
  <b class="xy"><p>1</b>2 (no-eol)
  $ printf '<table><tr class=a>' | tl set tbody class --add-word b
  tl: -: at line 1, column 8: browsers add an element before this, which has no tag: write its start tag, or drop a stray end tag (err)
  [2]
  $ printf '<table><tr class=a>' | tl set tbody class --suffix b
  <table><tr class=a> (no-eol)
  [1]

One option says how, and none stands beside a value that is said: the first word behind the key is a page then.

  $ tl set a href
  tl: VALUE is missing: give it, or an option that makes it (err)
  [2]
  $ tl set a href --prefix x --suffix y links 2>&1 | head -1
  error: the argument '--prefix <TEXT>' cannot be used with '--suffix <TEXT>'
  $ tl set a href --literal links 2>&1 | head -1
  error: the following required arguments were not provided:
  $ tl set a class --add-word 'a b' links
  tl: not one word: 'a b' (err)
  [2]
  $ tl set a class --remove-word '' links
  tl: not one word: '' (err)
  [2]
  $ tl set a href --replace '(' x links
  tl: invalid regular expression: (: regex parse error at 0..1: unclosed group (err)
  [2]
  $ tl set a href --literal --replace '' x links
  tl: --replace: the text to replace is empty (err)
  [2]
  $ tl set a title --from 'a b' links
  tl: invalid attribute name: a b (err)
  [2]
  $ tl set -i a href --prefix x
  tl: -i needs files: standard input can't be edited in place (err)
  [2]
  $ tl set a href --prefix x links - <links | wc -l
  4

In their files: each is replaced at once, keeps its mode, and is not touched where nothing is found.

  $ chmod 640 page
  $ ln -s page link
  $ tl set -i a href /y link
  $ cat page
  <UL>
  <LI><A HREF="/y">a</a> &am<b CLASS=k>p; (no-eol)
  $ readlink link
  page
  $ stat -c %a page
  640
  $ tl set --backup .old a href /z page
  $ grep -o '/[yz]' page page.old
  page:/z
  page.old:/y
  $ touch -d 2001-01-01 page
  $ tl set -i i k v page
  [1]
  $ stat -c %y page | cut -c 1-4
  2001
  $ cp page other
  $ tl set -i b class n page missing other
  tl: missing: No such file or directory (err)
  [4]
  $ grep -o 'CLASS="n"' page other
  page:CLASS="n"
  other:CLASS="n"

What stood in the place of the old page is gone.

  $ printf '<p>1' >second
  $ tl set --backup .old p k v second
  $ tl set --backup .old p k w second
  $ cat second second.old
  <p k="w">1<p k="v">1 (no-eol)

Where a link has the name of the backup, what it leads to keeps its bytes, also where that is the page.

  $ printf '<p>2' >other
  $ ln -sf other second.old
  $ tl set --backup .old p k x second
  $ cat second second.old other
  <p k="x">1<p k="w">1<p>2 (no-eol)
  $ ln -s other other.old
  $ tl set --backup .old p k v other
  $ cat other other.old
  <p k="v">2<p>2 (no-eol)
  $ ls | grep tl-
  [1]

An empty suffix would be the page.

  $ tl set --backup '' p k v second
  tl: --backup: the suffix is empty (err)
  [2]
  $ cat second
  <p k="x">1 (no-eol)

What is no regular file stays as it is.

  $ mkfifo pipe
  $ (printf '<p>' >pipe & tl set -i p k v pipe 2>said; echo $?; wait)
  4
  $ cat said
  tl: pipe: not a regular file
  $ rm pipe said second second.old other other.old

A failed write leaves the old page, and nothing beside it.

  $ (trap '' XFSZ; ulimit -f 0; tl set -i a href /q page 2>&1; echo $?) | cat
  tl: page: File too large
  4
  $ grep -o 'HREF="/[a-z]"' page
  HREF="/z"
  $ ls page*
  page
  page.old
  $ tl set a href /q page >/dev/full
  tl: standard output: No space left on device (err)
  [4]
  $ mkdir folder
  $ tl set -i a k v folder
  tl: folder: is a directory; folder/*.html names the pages in it (err)
  [4]

Elements get another name, or go, or their tags alone.

  $ printf '<ul>\n<LI a=1>one\n<li>two</ul>\n<CENTER>x</center >\n' >list
  $ tl rename center DIV list
  <ul>
  <LI a=1>one
  <li>two</ul>
  <div>x</div >
  $ tl rename li dd <list
  <ul>
  <dd a=1>one
  </dd><dd>two</dd></ul>
  <CENTER>x</center >
  $ tl remove li list
  <ul>
  </ul>
  <CENTER>x</center >
  $ tl remove 'li:first-child' list
  <ul>
  <li>two</ul>
  <CENTER>x</center >
  $ tl unwrap 'center, li' list
  <ul>
  one
  two</ul>
  x
  $ tl remove 'ul, li' list
  (empty)
  <CENTER>x</center >
  tl: list: browsers build another tree than is meant by the edit that begins at line 1, column 1 (err)
  $ tl remove b list | cmp - list
  $ tl remove b list >/dev/null
  [1]
  $ tl rename center h1 --dry-run list
  list:4:1
  $ tl remove li --dry-run list list
  list:2:1
  list:3:1
  list:2:1
  list:3:1
  $ tl rename --dry-run b i list
  [1]

Something stands in their place, in them, before or after them: a text, or markup with `--html`.

  $ tl replace center '<hr> & more' list
  <ul>
  <LI a=1>one
  <li>two</ul>
  &lt;hr> &amp; more
  $ tl replace --html center '<hr> & more' list
  <ul>
  <LI a=1>one
  <li>two</ul>
  <hr> & more
  $ tl fill li 'x < y' list
  <ul>
  <LI a=1>x &lt; y<li>x &lt; y</ul>
  <CENTER>x</center >
  $ tl fill --html center '<b>x</b>' list
  <ul>
  <LI a=1>one
  <li>two</ul>
  <CENTER><b>x</b></center >
  $ tl prepend center '1 ' list
  <ul>
  <LI a=1>one
  <li>two</ul>
  <CENTER>1 x</center >
  $ tl prepend --html ul '<!-- -->' list
  <ul><!-- -->
  <LI a=1>one
  <li>two</ul>
  <CENTER>x</center >
  $ tl append center '&' list
  <ul>
  <LI a=1>one
  <li>two</ul>
  <CENTER>x&amp;</center >
  $ tl append --html li '<br>' list
  <ul>
  <LI a=1>one
  <br><li>two<br></ul>
  <CENTER>x</center >
  $ tl before center '&' list
  <ul>
  <LI a=1>one
  <li>two</ul>
  &amp;<CENTER>x</center >
  $ tl before --html li '<hr>' list
  <ul>
  <hr><LI a=1>one
  </li><hr><li>two</ul>
  <CENTER>x</center >
  $ tl after li '&' list
  <ul>
  <LI a=1>one
  </li>&amp;<li>two</li>&amp;</ul>
  <CENTER>x</center >
  $ tl after --html center '<hr>' list
  <ul>
  <LI a=1>one
  <li>two</ul>
  <CENTER>x</center ><hr>
  $ printf '<p>a</p>b' | tl fill p ''
  <p></p>b (no-eol)
  $ printf 'AT&am<b>x</b>p;' | tl remove b
  AT&am</>p; (no-eol)
  $ printf '<title>a</title>b' | tl fill title '</title>'
  <title>&lt;/title></title>b (no-eol)
  $ printf '<script>a</script>b' | tl fill script '1 < 2'
  <script>1 < 2</script>b (no-eol)
  $ printf '<title>a &amp; b</title>c' | tl unwrap title
  a &amp; bc (no-eol)
  tl: -: browsers build another tree than is meant by the edit that begins at line 1, column 1 (err)

What is put before an element, or in its place, stands outside of the one before: an end tag that is missing there is put in, once, and
none where nothing is open.

  $ printf '<ul><li>a<li>b</ul>' | tl before 'li:nth-child(2)' X
  <ul><li>a</li>X<li>b</ul> (no-eol)
  $ printf '<p>a<hr>b' | tl replace hr X
  <p>a</p>Xb (no-eol)
  $ printf '<p>a<div>b</div>c' | tl rename div span
  <p>a</p><span>b</span>c (no-eol)
  $ printf '<p>a<div>b</div>c' | tl unwrap div
  <p>a</p>bc (no-eol)
  $ printf '<select><OPTION>a<option>b</select>c' | tl unwrap select
  <OPTION>a<option>b</option>c (no-eol)
  $ printf '<table><tr><td>a<tr><td>b</table>' | tl before --html 'tr:nth-child(2)' '<tr>'
  <table><tr><td>a</tr><tr><tr><td>b</table> (no-eol)
  $ printf '<p>a<p>b' | tl before p X
  X<p>a</p>X<p>b (no-eol)
  $ printf '<p>a</p><p>b' | tl before p X
  X<p>a</p>X<p>b (no-eol)
  $ printf '<p>a<p>b<p>c' | tl replace p X
  XXX (no-eol)
  $ printf '<p>a<p>b<p>c' | tl rename p b
  <b>a</b><b>b</b><b>c</b> (no-eol)
  $ printf '<p>a<p>b<p>c' | tl unwrap p
  abc (no-eol)
  $ printf '<p>a<p>b<p>c' | tl remove 'p:nth-child(2)'
  <p>a<p>c (no-eol)
  $ printf '<p>a<p>b<p>c' | tl prepend 'p:nth-child(2)' X
  <p>a<p>Xb<p>c (no-eol)

What is put last in an element stands in no other one, nor does what stands behind an element whose tags go or get another name.

  $ printf '<h1>a<h2>b</h2>' | tl before h2 X
  <h1>a</h1>X<h2>b</h2> (no-eol)
  $ printf '<div><p>a</div>' | tl append div X
  <div><p>a</p>X</div> (no-eol)
  $ printf '<div><p>a</div>' | tl append 'div, p' X
  <div><p>aX</p>X</div> (no-eol)
  $ printf '<div><p>a</div>' | tl prepend div X
  <div>X<p>a</div> (no-eol)
  $ printf '<ul><li><p>a<li>b</ul>' | tl append li X
  <ul><li><p>a</p>X<li>bX</ul> (no-eol)
  $ printf '<div><span>a</div>' | tl append div X
  <div><span>a</span>X</div> (no-eol)
  $ printf '<div><p>a</div>b' | tl rename div x-y
  <x-y><p>a</p></x-y>b (no-eol)
  $ printf '<div><p>a</div>b' | tl unwrap div
  <p>a</p>b (no-eol)
  $ printf '<ul><li><p>a</ul>' | tl rename 'li, p' b
  <ul><b><b>a</b></b></ul> (no-eol)
  $ printf '<ul><li><p>a</ul>' | tl after 'li, p' X
  <ul><li><p>a</p>X</li>X</ul> (no-eol)

A body ends at its end tag, where that stands last in the page.

  $ printf '<body>\n<p>a</p></body></html>\n' >whole
  $ tl prepend body x whole
  <body>x
  <p>a</p></body></html>
  $ tl append body x whole
  <body>
  <p>a</p>x</body></html>
  tl: whole: browsers build another tree than is meant by the edit that begins at line 1, column 1 (err)
  $ tl fill body x whole
  <body>x</body></html>
  tl: whole: browsers build another tree than is meant by the edit that begins at line 1, column 1 (err)
  $ tl unwrap body whole
  (empty)
  <p>a</p></html>
  tl: whole: browsers build another tree than is meant by the edit that begins at line 1, column 1 (err)
  $ tl rename body div whole
  <div>
  <p>a</p></div></html>
  tl: whole: browsers build another tree than is meant by the edit that begins at line 1, column 1 (err)
  $ tl remove body whole
  </html>
  tl: whole: browsers build another tree than is meant by the edit that begins at line 1, column 1 (err)
  $ tl after body x whole
  tl: whole: at line 1, column 1: <body> isn't closed, has no content, or can't be edited this way: close it, or edit its attributes (err)
  [2]
  $ printf '<html><body><p>a</BODY> <!--b--></html>\n' >open
  $ tl append body '!' open
  <html><body><p>a</p>!</BODY> <!--b--></html>
  tl: open: browsers build another tree than is meant by the edit that begins at line 1, column 7 (err)
  $ tl append html '!' open
  <html><body><p>a</BODY> <!--b-->!</html>
  tl: open: browsers build another tree than is meant by the edit that begins at line 1, column 1 (err)
  $ tl remove p open
  <html><body></BODY> <!--b--></html>
  tl: open: browsers build another tree than is meant by the edit that begins at line 1, column 13 (err)
  $ tl after p x open
  <html><body><p>a</p>x</BODY> <!--b--></html>
  tl: open: browsers build another tree than is meant by the edit that begins at line 1, column 13 (err)

With anything else behind it what it says is in the body to browsers, and it ends nothing.

  $ printf '<body>a</body>b\n' | tl fill body x
  <body>x (no-eol)
  $ printf '<body>a</body>b\n' | tl append body x
  <body>a</body>b
  x (no-eol)
  $ printf '<body>a</body><p>b\n' | tl prepend body x
  <body>xa</body><p>b

Something may stand behind the last byte, where what the page ends with is read the same before it.

  $ printf '<p>a' >last
  $ tl append p x last
  <p>ax (no-eol)
  $ tl after p x last
  <p>a</p>x (no-eol)
  $ tl rename p i last
  <i>a</i> (no-eol)
  $ printf '<p>AT&am' | tl append p 'p;'
  <p>AT&am</>p; (no-eol)
  $ printf '<p>1 <' | tl append --html p 'b>'
  <p>1 <</>b> (no-eol)
  $ printf '<p><title>a' | tl append p x
  tl: -: at line 1, column 1: <p> can't be edited this way, as other parts of the page would be read differently (err)
  [2]
  $ printf '<p>a<b' | tl append p x
  tl: -: at line 1, column 1: <p> can't be edited this way, as other parts of the page would be read differently (err)
  [2]
  $ printf '<p>a<!-- b' | tl after p x
  tl: -: at line 1, column 1: <p> can't be edited this way, as other parts of the page would be read differently (err)
  [2]
  $ printf '<p><title>a' | tl append --html p '<i>'
  tl: -: at line 1, column 1: <p> can't be edited this way, as other parts of the page would be read differently (err)
  [2]
  $ printf '<li><plaintext>a' | tl after li x
  tl: -: at line 1, column 1: <li> can't be edited this way, as other parts of the page would be read differently (err)
  [2]

In their files.

  $ cp list copy
  $ tl unwrap -i center copy
  $ diff list copy
  4c4
  < <CENTER>x</center >
  ---
  \x3e x (esc)
  [1]
  $ tl append --backup .old li '!' copy
  $ diff copy.old copy
  3c3
  < <li>two</ul>
  ---
  \x3e !<li>two!</ul> (esc)
  [1]
  $ touch -d 2001-01-01 copy
  $ tl remove -i b copy
  [1]
  $ stat -c %y copy | cut -c 1-4
  2001
  $ cp list third
  $ tl fill -i li n copy missing third
  tl: missing: No such file or directory (err)
  [4]
  $ grep -c '<li>n' copy third
  copy:1
  third:1
  $ (trap '' XFSZ; ulimit -f 0; tl remove -i li third 2>&1; echo $?) | cat
  tl: third: File too large
  4
  $ grep -c '<li>n' third
  1

What is refused.

  $ printf '<div><q>x</div>y' >open
  $ tl remove q open
  tl: open: at line 1, column 6: <q> isn't closed, has no content, or can't be edited this way: close it, or edit its attributes (err)
  [2]
  $ tl unwrap -i q open
  tl: open: at line 1, column 6: <q> isn't closed, has no content, or can't be edited this way: close it, or edit its attributes (err)
  [2]
  $ tl append q x open
  tl: open: at line 1, column 6: <q> isn't closed, has no content, or can't be edited this way: close it, or edit its attributes (err)
  [2]
  $ tl prepend q 'x' open
  <div><q>xx</div>y (no-eol)
  $ tl before q 'x' open
  <div>x<q>x</div>y (no-eol)
  $ tl after q 'x' open
  tl: open: at line 1, column 6: <q> isn't closed, has no content, or can't be edited this way: close it, or edit its attributes (err)
  [2]
  $ printf '<p>a<br>b</p>' >break
  $ tl fill br x break
  tl: break: at line 1, column 5: <br> isn't closed, has no content, or can't be edited this way: close it, or edit its attributes (err)
  [2]
  $ tl rename br b break
  tl: break: at line 1, column 5: <br> isn't closed, has no content, or can't be edited this way: close it, or edit its attributes (err)
  [2]
  $ tl rename p br break
  tl: break: at line 1, column 1: <p> isn't closed, has no content, or can't be edited this way: close it, or edit its attributes (err)
  [2]
  $ tl rename p title break
  tl: break: at line 1, column 1: <p> isn't closed, has no content, or can't be edited this way: close it, or edit its attributes (err)
  [2]
  $ tl rename p 'a b' break
  tl: invalid element name: a b (err)
  [2]
  $ tl rename p '' break
  tl: invalid element name:\x20 (esc) (err)
  [2]
  $ tl rename p ' b ' break
  tl: invalid element name:  b\x20 (esc) (err)
  [2]
  $ tl append --html p '<!-- ' break
  tl: break: at line 1, column 1: <p> can't be edited this way, as other parts of the page would be read differently (err)
  [2]
  $ tl append --html p '<i t="' break
  tl: break: at line 1, column 1: <p> can't be edited this way, as other parts of the page would be read differently (err)
  [2]
  $ printf '<title>a</title>' | tl fill --html title '<b>'
  tl: -: at line 1, column 1: <title> can't have the new content, attribute or name (err)
  [2]
  $ printf '<script>a</script>' | tl fill script '</script>'
  tl: -: at line 1, column 1: <script> can't be edited this way, as other parts of the page would be read differently (err)
  [2]
  $ printf '<script>a &amp; b</script>' | tl unwrap script
  tl: -: at line 1, column 1: <script> can't be edited this way, as other parts of the page would be read differently (err)
  [2]
  $ printf '<p>a</p></p>' | tl remove p
  tl: -: at line 1, column 13: browsers add an element before this, which has no tag: write its start tag, or drop a stray end tag (err)
  [2]
  $ tl remove 'b[' break
  tl: invalid selector: at byte 2: expected a name (err)
    b[ (err)
      ^ (err)
  [2]
  $ tl set -i 'p[' k v
  tl: invalid selector: at byte 2: expected a name (err)
    p[ (err)
      ^ (err)
  [2]
  $ tl set -i 'p[' k v missing
  tl: invalid selector: at byte 2: expected a name (err)
    p[ (err)
      ^ (err)
  [2]
  $ tl set -i p 'k=' v <break
  tl: invalid attribute name: k= (err)
  [2]
  $ tl remove -i b <break
  tl: -i needs files: standard input can't be edited in place (err)
  [2]
  $ cat open
  <div><q>x</div>y (no-eol)

  $ tl set -i a k v <page
  tl: -i needs files: standard input can't be edited in place (err)
  [2]
  $ tl set --backup .old a k v page -
  tl: -i needs files: standard input can't be edited in place (err)
  [2]
  $ printf '<a>\377' >bytes
  $ tl set -i a k v bytes
  $ od -An -c bytes | tr -d ' \n'
  <ak="v">377 (no-eol)
  $ printf '<\0?\0x\0m\0l\0 \0v\0?\0>\0<\0p\0>\0a\0' | tl set p k v
  <\x00?\x00x\x00m\x00l\x00 \x00v\x00?\x00>\x00<\x00p\x00 \x00k\x00=\x00"\x00v\x00"\x00>\x00a\x00 (esc) (no-eol)
  $ printf '<meta charset=latin1><p>a' | tl set p k é
  <meta charset=latin1><p k="\xe9">a (esc) (no-eol)
  $ printf '<?xml version="1.0" encoding="koi8-r"?><p>a' | tl append p é
  <?xml version="1.0" encoding="koi8-r"?><p>a&#233; (no-eol)
  $ printf '<meta charset=latin1><p>a' | tl set p k e
  <meta charset=latin1><p k="e">a (no-eol)
  $ printf '<meta charset=latin1><p>è' | tl set p k é
  <meta charset=latin1><p k="\xe9">è (esc) (no-eol)
  $ printf '<meta charset=iso-2022-jp><p>a' | tl set p k e
  tl: -: pages in ISO-2022-JP can't be edited; convert them: iconv -f ISO-2022-JP -t UTF-8 (err)
  [2]
  $ printf '<meta charset=utf-8><p>a' | tl set p k é
  <meta charset=utf-8><p k="é">a (no-eol)
  $ tl set a 'k=' v page
  tl: invalid attribute name: k= (err)
  [2]
  $ tl set a '' v page
  tl: invalid attribute name:\x20 (esc) (err)
  [2]
  $ printf '<p>a</p></p>' | tl set p k v
  tl: -: at line 1, column 13: browsers add an element before this, which has no tag: write its start tag, or drop a stray end tag (err)
  [2]

A browser may read a `style` or `script` behind an `svg` and its like as markup: no text with `&` or `<` is put there.

  $ printf '<svg>\n<style>a</style></svg><style>b</style>' >drawing
  $ tl fill 'svg style' 'a<b' drawing
  tl: drawing: a browser may read the text as markup in the element at line 2, after svg at line 1: leave out '<' and '&', or move the element before it (err)
  [2]
  $ tl fill -i style 'a&b' drawing
  tl: drawing: a browser may read the text as markup in the element at line 2, after svg at line 1: leave out '<' and '&', or move the element before it (err)
  [2]
  $ tl append 'svg ~ style' 'a<b' drawing
  tl: drawing: a browser may read the text as markup in the element at line 2, after svg at line 1: leave out '<' and '&', or move the element before it (err)
  [2]
  $ tl fill 'svg style' 'a>b' drawing
  <svg>
  <style>a>b</style></svg><style>b</style> (no-eol)
  $ tl fill --html 'svg style' '<g/>' drawing
  tl: drawing: at line 2, column 1: <style> can't have the new content, attribute or name (err)
  [2]
  $ tl before 'svg style' 'a<b' drawing
  <svg>
  a&lt;b<style>a</style></svg><style>b</style> (no-eol)
  $ printf '<MATH>\n\n<SCRIPT>a</SCRIPT></MATH>' | tl prepend 'math script' '&'
  tl: -: a browser may read the text as markup in the element at line 3, after math at line 1: leave out '<' and '&', or move the element before it (err)
  [2]
  $ printf '<svg><p><xmp>a</xmp>' | tl append xmp '<'
  tl: -: a browser may read the text as markup in the element at line 1, after svg at line 1: leave out '<' and '&', or move the element before it (err)
  [2]
  $ printf '<svg><p><xmp>a' | tl append xmp '<'
  tl: -: at line 1, column 9: <xmp> isn't closed, has no content, or can't be edited this way: close it, or edit its attributes (err)
  [2]
  $ printf '<svg><title>a</title></svg>' | tl fill title '<'
  <svg><title>&lt;</title></svg> (no-eol)
  $ printf '<style>a</style><svg></svg>' | tl fill style '<'
  <style><</style><svg></svg> (no-eol)
  $ printf '</svg><style>a</style>' | tl fill style '<'
  </svg><style><</style> (no-eol)
  $ printf '<body><noscript><style></style></noscript>' | tl fill style 'a</noscript><img src=x onerror=alert(1)>'
  tl: -: a browser may read the text as markup in the element at line 1, after noscript at line 1: leave out '<' and '&', or move the element before it (err)
  [2]
  $ for front in '<template></template>' '<select>' '<svg><b><math></svg>' '<svg></p><math></svg>' '<noscript></noscript>'; do
  >   printf '%s<style>a</style>' "$front" | tl fill style '<' 2>&1 | grep -o 'after [a-z]* at'
  > done
  after template at
  after select at
  after svg at
  after svg at
  after noscript at

Nor does an element get such a name before a raw text with one of them.

  $ printf '<p>\n<div class=d><style>p{content:"<img src=x onerror=f()>"}</style></div>' >styled
  $ tl rename .d svg styled
  tl: styled: the element at line 2 can't get that name: a browser may then read a style, script or title with '<' or '&' in it or after it as markup (err)
  [2]
  $ tl rename -i p noscript styled
  tl: styled: the element at line 1 can't get that name: a browser may then read a style, script or title with '<' or '&' in it or after it as markup (err)
  [2]
  $ tl rename .d section styled
  <p>
  </p><section class=d><style>p{content:"<img src=x onerror=f()>"}</style></section> (no-eol)
  $ printf '<div><style>a</style>&lt;</div>' | tl rename div template
  <template><style>a</style>&lt;</template> (no-eol)
  tl: -: browsers build another tree than is meant by the edit that begins at line 1, column 1 (err)
  $ printf '<script>1 < 2</script><b>a</b>' | tl rename b svg
  <script>1 < 2</script><svg>a</svg> (no-eol)
  tl: -: browsers build another tree than is meant by the edit that begins at line 1, column 23 (err)

A selector is asked of the tree that browsers build, with the tags that they put in.

  $ printf '<table><tr><td>a</table>' >rows
  $ tl set 'table > tbody > tr' class k rows
  <table><tr class="k"><td>a</table> (no-eol)
  $ tl remove 'body td' rows
  <table><tr></table> (no-eol)
  $ tl set 'table > tr' class k rows
  <table><tr><td>a</table> (no-eol)
  [1]
  $ printf '<svg><title>x</title><P>y' | tl set 'body > p' k v
  <svg><title>x</title><P k="v">y (no-eol)
  $ printf '<template><p>x</template><p>y' | tl remove p
  <template><p>x</template> (no-eol)

What a start tag stands for several times is changed once.

  $ printf '<div><b>1<p>2</b>3</p></div>' | tl set --dry-run b k v
  -:1:6
  $ printf '<div><b>1<p>2</b>3</p></div>' | tl set b k v
  <div><b k="v">1<p>2</b>3</p></div> (no-eol)

An element that browsers put in has no tag that could be changed; a key that it has not can go.

  $ tl set -i tbody class k rows rows
  tl: rows: at line 1, column 8: browsers add an element before this, which has no tag: write its start tag, or drop a stray end tag (err)
  tl: rows: at line 1, column 8: browsers add an element before this, which has no tag: write its start tag, or drop a stray end tag (err)
  [2]
  $ tl remove 'body *' rows
  tl: rows: at line 1, column 8: browsers add an element before this, which has no tag: write its start tag, or drop a stray end tag (err)
  [2]
  $ printf 'x' | tl append head y
  tl: -: at line 1, column 1: browsers add an element before this, which has no tag: write its start tag, or drop a stray end tag (err)
  [2]
  $ printf '<p class=x>a' | tl unset '*' class
  <p>a (no-eol)

An element has to be whole: what begins in the bytes that it has by its end tags stands in it to browsers, and nothing else does. Else its tag alone can be changed.

  $ printf '<svg><p>x</p></svg>y' >across
  $ tl remove svg across
  tl: across: only attributes of the element at line 1, column 1 can be edited: by its tags it has other content than in browsers (see line 1, column 9) (err)
  [2]
  $ tl before svg z across
  tl: across: only attributes of the element at line 1, column 1 can be edited: by its tags it has other content than in browsers (see line 1, column 9) (err)
  [2]
  $ tl set svg k v across
  <svg k="v"><p>x</p></svg>y (no-eol)
  $ tl remove p across
  <svg></svg>y (no-eol)
  $ printf '<div>\n<b>1<p>2</b>3</p></div>' | tl unwrap b
  tl: -: only attributes of the element at line 2, column 1 can be edited: by its tags it has other content than in browsers (see line 2, column 1) (err)
  [2]
  $ printf '<div><b>1<p>2</b>3</p></div>' | tl append div x
  <div><b>1<p>2</b>3</p></b>x</div> (no-eol)
  $ printf '<table><tr><i>1</i><td>2</table>' | tl fill tr x
  tl: -: only attributes of the element at line 1, column 8 can be edited: by its tags it has other content than in browsers (see line 1, column 12) (err)
  [2]
  $ printf '<table><tr><i>1</i><td>2</table>' | tl remove td
  <table><tr><i>1</i></table> (no-eol)

Where the tokenizer by itself reads a text, no tag can be changed.

  $ printf '<svg><title><b></title></svg>' | tl set b k v
  tl: -: at line 1, column 13: <b> is a tag to browsers, and text by the names of tags alone: move it out of the element it is in (err)
  [2]

What is written is read again. Where browsers build another tree than the operation of the DOM would have made, that is told, and with --strict refused.

  $ printf '<p>Bread</p>' | tl append --html p '<div>x</div>'
  <p>Bread<div>x</div></p> (no-eol)
  tl: -: browsers build another tree than is meant by the edit that begins at line 1, column 1 (err)
  $ printf '<table><tr><td>a</table>' | tl append --strict tr x
  tl: -: browsers build another tree than is meant by the edit that begins at line 1, column 8; --strict refuses it (err)
  [2]
  $ printf '<p>Bread</p>' >loaf
  $ tl append --html p '<div>x</div>' loaf
  <p>Bread<div>x</div></p> (no-eol)
  tl: loaf: browsers build another tree than is meant by the edit that begins at line 1, column 1 (err)
  $ tl append --strict --html p '<div>x</div>' loaf
  tl: loaf: browsers build another tree than is meant by the edit that begins at line 1, column 1; --strict refuses it (err)
  [2]
  $ tl append --html p '<b>x' loaf
  <p>Bread<b>x</p> (no-eol)
  $ tl append --strict p '<div>' loaf
  <p>Bread&lt;div></p> (no-eol)
  $ tl append -i --strict --html p '<hr>' loaf
  tl: loaf: browsers build another tree than is meant by the edit that begins at line 1, column 1; --strict refuses it (err)
  [2]
  $ cat loaf
  <p>Bread</p> (no-eol)
  $ tl append --strict --dry-run --html p '<hr>' loaf
  tl: loaf: browsers build another tree than is meant by the edit that begins at line 1, column 1; --strict refuses it (err)
  [2]
  $ tl append --dry-run --html p '<hr>' loaf
  loaf:1:1
  tl: loaf: browsers build another tree than is meant by the edit that begins at line 1, column 1 (err)
  $ tl append -i --html p '<hr>' loaf
  tl: loaf: browsers build another tree than is meant by the edit that begins at line 1, column 1 (err)
  $ cat loaf
  <p>Bread<hr></p> (no-eol)
  $ printf '<table>\n<tr><td>a</table>' >cells
  $ tl before td x cells
  <table>
  <tr>x<td>a</table> (no-eol)
  tl: cells: browsers build another tree than is meant by the edit that begins at line 2, column 5 (err)
  $ tl append tr x cells
  <table>
  <tr><td>a</td>x</table> (no-eol)
  tl: cells: browsers build another tree than is meant by the edit that begins at line 2, column 1 (err)
  $ tl append td x cells
  <table>
  <tr><td>ax</table> (no-eol)
  $ tl after --html td '<td>b' cells
  <table>
  <tr><td>a</td><td>b</table> (no-eol)
  $ tl after --html td '<p>b' cells
  <table>
  <tr><td>a</td><p>b</table> (no-eol)
  tl: cells: browsers build another tree than is meant by the edit that begins at line 2, column 5 (err)
  $ tl remove tr cells
  <table>
  </table> (no-eol)
  tl: cells: browsers build another tree than is meant by the edit that begins at line 2, column 1 (err)
  $ tl remove td cells
  <table>
  <tr></table> (no-eol)
  $ tl rename table div cells
  <div>
  <tr><td>a</tr></div> (no-eol)
  tl: cells: browsers build another tree than is meant by the edit that begins at line 1, column 1 (err)
  $ printf '<ul><li>a<li>b</ul>' | tl fill --html li '<b>k'
  <ul><li><b>k<li><b>k</ul> (no-eol)
  tl: -: browsers build another tree than is meant by the edit that begins at line 1, column 5 (err)
  $ printf '<ul><li>a<li>b</ul>' | tl fill --html li '<b>k</b>'
  <ul><li><b>k</b><li><b>k</b></ul> (no-eol)
  $ printf '<pre>a</pre>' | tl prepend pre '
  > x'
  <pre>
  xa</pre> (no-eol)
  tl: -: browsers build another tree than is meant by the edit that begins at line 1, column 1 (err)
  $ printf '<form><div>a</div></form>' | tl append --html div '<form>b</form>'
  <form><div>a<form>b</form></div></form> (no-eol)
  $ printf '<form><div>a</div></form><div>c</div>' | tl append --html 'form + div' '<form>b</form>'
  <form><div>a</div></form><div>c<form>b</form></div> (no-eol)
  $ printf '<form>a</form>' | tl fill --html form '<form>b</form>'
  <form><form>b</form></form> (no-eol)
  $ printf '<template>a</template>' | tl append --html template '<td>b'
  <template>a<td>b</template> (no-eol)
  $ printf '<p>x<template><b>a</b></template>' | tl unwrap template
  <p>x<b>a</b> (no-eol)
  $ printf '<template><b>a</b></template>' | tl unwrap template
  <b>a</b> (no-eol)
  tl: -: browsers build another tree than is meant by the edit that begins at line 1, column 1 (err)
  $ printf '<math><annotation-xml encoding=text/html>a</annotation-xml><annotation-xml>b</annotation-xml></math>' | tl append --html annotation-xml '<p>c</p>'
  <math><annotation-xml encoding=text/html>a<p>c</p></annotation-xml><annotation-xml>b<p>c</p></annotation-xml></math> (no-eol)
  tl: -: browsers build another tree than is meant by the edit that begins at line 1, column 7 (err)
  $ printf '<math><annotation-xml encoding=text/html>a</annotation-xml></math>' | tl append --html annotation-xml '<p>c</p>'
  <math><annotation-xml encoding=text/html>a<p>c</p></annotation-xml></math> (no-eol)
  $ printf '<ul><li id=a>a</li><li id=b>b</li></ul>' | tl append --html li '<b>c</b>'
  <ul><li id=a>a<b>c</b></li><li id=b>b<b>c</b></li></ul> (no-eol)
  $ printf '<head></head><body>a</body>' | tl remove head
  <body>a</body> (no-eol)
  tl: -: browsers build another tree than is meant by the edit that begins at line 1, column 1 (err)
  $ printf '<head></head><body>a</body>' | tl before body b
  <head></head>b<body>a</body> (no-eol)
  tl: -: browsers build another tree than is meant by the edit that begins at line 1, column 14 (err)
  $ printf '<head></head><body>a</body>' | tl append body b
  <head></head><body>ab</body> (no-eol)
  $ printf '<svg><desc>a</desc></svg>' | tl append --html desc '<p>b</p>'
  <svg><desc>a<p>b</p></desc></svg> (no-eol)
  $ printf '<svg><g>a</g></svg>' | tl append --html g '<p>b</p>'
  <svg><g>a<p>b</p></g></svg> (no-eol)
  tl: -: browsers build another tree than is meant by the edit that begins at line 1, column 6 (err)

Of a key that rules of the standard ask for too.

  $ printf '<svg><font>a</font></svg>' >font
  $ tl set font color red font
  <svg><font color="red">a</font></svg> (no-eol)
  tl: font: browsers build another tree than is meant by the edit that begins at line 1, column 6 (err)
  $ tl set --strict font color red font
  tl: font: browsers build another tree than is meant by the edit that begins at line 1, column 6; --strict refuses it (err)
  [2]
  $ tl set --strict font class red font
  <svg><font class="red">a</font></svg> (no-eol)
  $ printf '<svg viewBox=1><g/></svg>' | tl set --strict svg viewbox 2
  <svg viewBox="2"><g/></svg> (no-eol)
  $ printf '<table><input type=hidden></table>' | tl unset input type
  <table><input></table> (no-eol)
  tl: -: browsers build another tree than is meant by the edit that begins at line 1, column 8 (err)
  $ printf '<input type=hidden>' | tl set --strict input type text
  <input type="text"> (no-eol)

And of each key of elements of HTML: a start tag may stand for several.

  $ printf '<p><b>1<p>2' | tl set 'p:first-child b' class k
  <p><b class="k">1<p>2 (no-eol)
  tl: -: browsers build another tree than is meant by the edit that begins at line 1, column 4 (err)
  $ printf '<p><b>1<p>2' | tl set --strict b class k
  <p><b class="k">1<p>2 (no-eol)
  $ printf '<html><html k=v><p>a' | tl unset html k
  <html><html k=v><p>a (no-eol)
  tl: -: browsers build another tree than is meant by the edit that begins at line 1, column 1 (err)
  $ printf '<p a=1>b' | tl set --strict p a 2
  <p a="2">b (no-eol)
  $ printf '<p a=1>b' | tl set --strict p b 2
  <p b="2" a=1>b (no-eol)
  $ printf '<p><b class=a>1<p>2' | tl set 'p:first-child b' class --suffix k
  <p><b class="ak">1<p>2 (no-eol)
  tl: -: browsers build another tree than is meant by the edit that begins at line 1, column 4 (err)
  $ printf '<p><b class=a>1<p>2' | tl set --strict b class --suffix k
  <p><b class="ak">1<p>2 (no-eol)
