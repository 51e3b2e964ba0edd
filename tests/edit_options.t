Options of edits: values of URLs, texts from files, what is told, backups as sed takes them.

  $ printf '<A HREF=/a?utm_x=1&amp;b=%%20#c>x</A>\n<a href="https://b.org/?utm_y">y</a>\n<a href="?a&b">z</a>\n' >links

Parameters of a URL's query go by their names, as they are written; the rest stays byte for byte, and a query of which nothing is left loses its mark.

  $ tl set a href --drop-query 'utm_*' links
  <A HREF="/a?b=%20#c">x</A>
  <a href="https://b.org/">y</a>
  <a href="?a&b">z</a>
  $ tl set a href --drop-query b links
  <A HREF="/a?utm_x=1#c">x</A>
  <a href="https://b.org/?utm_y">y</a>
  <a href="?a">z</a>
  $ tl set a href --drop-query '*' links
  <A HREF="/a#c">x</A>
  <a href="https://b.org/">y</a>
  <a href="">z</a>
  $ printf '<a href="x?fbclid=1&Utm_x&utm_y&&">' | tl set a href --drop-query '*clid'
  <a href="x?Utm_x&amp;utm_y&amp;&amp;"> (no-eol)
  $ tl set a href --drop-query 'u*x' links | head -1
  <A HREF="/a?b=%20#c">x</A>
  $ tl set a href --drop-query none links | cmp - links
  $ tl set a href --drop-query none links >/dev/null
  [1]
  $ tl set a href --drop-query 'a*b*' links
  tl: invalid pattern, which may have one * in it: 'a*b*' (err)
  [2]
  $ tl set a href --drop-query '' links
  tl: invalid pattern, which may have one * in it: '' (err)
  [2]

URLs are made absolute by the URL of the page and its base; those that need no base stay as they are, and so does what is no URL.

  $ printf '<base href=/d/><a href=x>1</a><a href="#top">2</a><A HREF=HTTP://B.org>3</A><a href="mailto:a b">4</a><a href="http://[">5</a><a>6</a>' >page
  $ tl set a href --base https://a.org/b/c page | tr '>' '\n' | grep -i '<a'
  <a href="https://a.org/d/x"
  <a href="https://a.org/d/#top"
  <A HREF=HTTP://B.org
  <a href="mailto:a b"
  <a href="http://["
  <a
  $ printf '<img srcset="a.png 1x, /b.png 2x,https://c/d" src=" a.png ">' | tl set img srcset --base https://a.org/b/
  <img srcset="https://a.org/b/a.png 1x, https://a.org/b.png 2x,https://c/d" src=" a.png "> (no-eol)
  $ printf '<img src=" a.png " title=a.png>' | tl set img src --base https://a.org/b/
  <img src=" https://a.org/b/a.png " title=a.png> (no-eol)
  $ printf '<img src=a.png title=a.png>' | tl set img title --base https://a.org/b/
  <img src=a.png title=a.png> (no-eol)
  [1]
  $ printf '<meta http-equiv=refresh content="3; url=x"><a ping="x y">' | tl set '*' content --base https://a.org/ | tl set a ping --base https://a.org/
  <meta http-equiv=refresh content="3; url=https://a.org/x"><a ping="https://a.org/x https://a.org/y"> (no-eol)
  $ printf '<svg><use xlink:href=a.svg#b /></svg>' | tl set use xlink:href --base https://a.org/
  <svg><use xlink:href="https://a.org/a.svg#b" /></svg> (no-eol)
  $ tl set a href --base a.org page
  tl: invalid URL: a.org: relative URL without a base (err)
  [2]
  $ tl set a href --base https://a.org --drop-query x page 2>&1 | head -1
  error: the argument '--base <URL>' cannot be used with '--drop-query <GLOB>'
  $ tl set a href --replace a b --base https://a.org page 2>&1 | head -1
  error: the argument '--replace <RE> <TO>' cannot be used with '--base <URL>'

  $ printf '<a href="http://a.org/?p=1&amp;q">x</a><A HREF=/b CLASS=k>y</A>' >links.html
  $ tl set a href --drop-query p links.html
  <a href="http://a.org/?q">x</a><A HREF=/b CLASS=k>y</A> (no-eol)
  $ tl set a href --base https://b.org/c/d.html links.html
  <a href="http://a.org/?p=1&amp;q">x</a><A HREF="https://b.org/b" CLASS=k>y</A> (no-eol)

Ids for headings: the words of each in lower case, another one where that is used; what stands there stays.

  $ printf '<h2>Big <b>Bread</b> & Butter</h2><h2 id=x>Y</h2><H2>Y</H2><h2> y </h2><h2>Y</h2><p id=y-2><h2></h2><h2><img></h2><h2 id>z</h2>' >heads
  $ tl set h2 id --from-text heads
  <h2 id="big-bread-&amp;-butter">Big <b>Bread</b> & Butter</h2><h2 id=x>Y</h2><H2 id="y">Y</H2><h2 id="y-3"> y </h2><h2 id="y-4">Y</h2><p id=y-2><h2></h2><h2><img></h2><h2 id>z</h2> (no-eol)
  $ tl set h2 id --from-text heads | tl set h2 id --from-text >/dev/null
  [1]
  $ printf '<h1>A</h1><h1>A</h1><h1>A-2</h1>' | tl set h1 ID --from-text
  <h1 id="a">A</h1><h1 id="a-2">A</h1><h1 id="a-2-2">A-2</h1> (no-eol)
  $ tl set h2 id --from-text --prefix x heads 2>&1 | head -1
  error: the argument '--from-text' cannot be used with '--prefix <TEXT>'

That nothing is found is no failure, where that is said.

  $ printf '<p>x\n<p>y\n' >two
  $ tl set i k v two >/dev/null
  [1]
  $ tl set --ok i k v two
  <p>x
  <p>y
  $ tl remove --ok -i i two
  $ tl set --ok p k v none
  tl: none: No such file or directory (err)
  [4]

How many places each page has is said on standard error.

  $ tl set -v p k v two
  <p k="v">x
  <p k="v">y
  tl: two: 2 places (err)
  $ tl set -v --dry-run p:first-child k v two
  two:1:1
  tl: two: 1 place (err)
  $ cp two three
  $ tl set -iv i k v two three
  tl: two: 0 places (err)
  tl: three: 0 places (err)
  [1]
  $ tl set -v p k v none
  tl: none: No such file or directory (err)
  [4]

What changes is written as a diff; with -i the page is changed too.

  $ printf '<ul>\n<li>a\n<li>b\n<li>c\n<li>d\n<li>e\n<li>f\n<li>g\n<li>h\n<li>i\n<li>j\n</ul>' >list
  $ tl set --diff 'li:nth-child(2), li:nth-child(10)' k v list
  --- list
  +++ list
  @@ -1,6 +1,6 @@
   <ul>
   <li>a
  -<li>b
  +<li k="v">b
   <li>c
   <li>d
   <li>e
  @@ -8,5 +8,5 @@
   <li>g
   <li>h
   <li>i
  -<li>j
  +<li k="v">j
   </ul>
  \ No newline at end of file
  $ tl remove --diff 'li:nth-child(-n+9)' list | grep -c '^-<'
  9
  $ tl after --html --diff ul '\n<hr>' list
  --- list
  +++ list
  @@ -9,4 +9,4 @@
   <li>h
   <li>i
   <li>j
  -</ul>
  \ No newline at end of file
  +</ul>\n<hr>
  \ No newline at end of file
  $ seq 40 | sed 's/^/<li>/' >many
  $ tl set --diff 'li:nth-child(n+3):nth-child(-n+25)' k v many | grep -c '^[-+]<'
  46
  $ tl remove --diff 'li:nth-child(n+3):nth-child(-n+25)' many | grep -c '^[-+]<'
  23
  $ cp list changed
  $ tl set --diff -i ul k v changed
  --- changed
  +++ changed
  @@ -1,4 +1,4 @@
  -<ul>
  +<ul k="v">
   <li>a
   <li>b
   <li>c
  $ head -1 changed
  <ul k="v">
  $ tl set --diff ul k v changed
  $ tl set --diff i k v changed
  [1]
  $ tl set --diff 'li:nth-child(5)' k v list | (cp list again; patch -s again); tl set 'li:nth-child(5)' k v list | cmp - again
  $ tl set --diff --dry-run ul k v list 2>&1 | head -1
  error: the argument '--diff' cannot be used with '--dry-run'

Backups as sed takes them: a suffix that stands right behind -i and begins with no letter, and --backup beside -i.

  $ printf '<p>1' >page
  $ tl set -i.bak p k v page
  $ cat page page.bak
  <p k="v">1<p>1 (no-eol)
  $ tl set p k w -i~ page
  $ cat page page~
  <p k="w">1<p k="v">1 (no-eol)
  $ tl set -i --backup .old p k x page
  $ cat page page.old
  <p k="x">1<p k="w">1 (no-eol)
  $ tl set -i.bak --dry-run p k v page 2>&1 | head -1
  error: the argument '--backup <SUFFIX>' cannot be used with '--dry-run'
  $ tl append p -- -i.bak page
  <p k="x">1-i.bak (no-eol)

A text may come from a file, or from standard input; one that begins with @ has two of them, and one that begins with - stands behind --.

  $ printf '<hr>\n' >rule
  $ tl prepend --html p @rule page
  <p k="x"><hr>
  1 (no-eol)
  tl: page: browsers build another tree than is meant by the edit that begins at line 1, column 1 (err)
  $ tl fill p @rule page
  <p k="x">&lt;hr>
  $ printf 'a & b' | tl fill p @- page
  <p k="x">a &amp; b (no-eol)
  $ tl append p @@x page
  <p k="x">1@x (no-eol)
  $ tl append -- p '- x' page
  <p k="x">1- x (no-eol)
  $ tl append p '- x' page 2>&1 | head -1
  error: unexpected argument '- ' found
  $ tl append p @none page
  tl: none: No such file or directory (err)
  [4]
  $ printf '\377' >wrong
  $ tl append p @wrong page
  tl: wrong: invalid UTF-8 at byte 0 (err)
  [2]
  $ printf x | tl append p @- -
  tl: standard input can't be both the page and what is put in (err)
  [2]
  $ printf x | tl append p @-
  tl: standard input can't be both the page and what is put in (err)
  [2]

With --skip what can't be changed is told and passed over, and the others are changed.

  $ printf '<p>a</p></p><p>b' >stray
  $ tl set p class k stray
  tl: stray: at line 1, column 13: browsers add an element before this, which has no tag: write its start tag, or drop a stray end tag (err)
  [2]
  $ tl set --skip p class k stray
  <p class="k">a</p></p><p class="k">b (no-eol)
  tl: stray: skipped at line 1, column 13: browsers add an element before this, which has no tag: write its start tag, or drop a stray end tag (err)
  [2]
  $ tl set --skip p class --from-text stray
  <p class="a">a</p></p><p class="b">b (no-eol)
  tl: stray: skipped at line 1, column 13: browsers add an element before this, which has no tag: write its start tag, or drop a stray end tag (err)
  [2]
  $ tl unset --skip p class stray
  <p>a</p></p><p>b (no-eol)
  $ tl set -iv --skip p class k stray
  tl: stray: 2 places (err)
  tl: stray: skipped at line 1, column 13: browsers add an element before this, which has no tag: write its start tag, or drop a stray end tag (err)
  [2]
  $ cat stray
  <p class="k">a</p></p><p class="k">b (no-eol)
  $ tl set --skip --dry-run p class j stray
  stray:1:1
  stray:1:23
  tl: stray: skipped at line 1, column 23: browsers add an element before this, which has no tag: write its start tag, or drop a stray end tag (err)
  [2]
  $ tl set --skip --diff p class j stray
  --- stray
  +++ stray
  @@ -1,1 +1,1 @@
  -<p class="k">a</p></p><p class="k">b
  \ No newline at end of file
  +<p class="j">a</p></p><p class="j">b
  \ No newline at end of file
  tl: stray: skipped at line 1, column 23: browsers add an element before this, which has no tag: write its start tag, or drop a stray end tag (err)
  [2]
  $ printf '<p>a</p>' | tl set --skip p class k
  <p class="k">a</p> (no-eol)
  $ printf '</p>' | tl set --skip p class k
  </p> (no-eol)
  [1]
  $ printf '</p></p>\n</p>' | tl set --skip --ok p class k
  </p></p>
  </p> (no-eol)
  $ printf '<div>a<b>c</div>d</b><b>e</b>' | tl rename b i
  tl: -: only attributes of the element at line 1, column 7 can be edited: by its tags it has other content than in browsers (see line 1, column 17) (err)
  [2]
  $ printf '<div>a<b>c</div>d</b><b>e</b>' | tl rename --skip b i
  <div>a<b>c</div>d</b><i>e</i> (no-eol)
  tl: -: skipped at line 1, column 7: <b> has other content by its tags than in browsers: only its attributes can be edited (err)
  [2]
  $ printf '<br>a<p>b</p><q>c' | tl append --skip 'br, p, q' x
  <br>a<p>bx</p><q>c (no-eol)
  tl: -: skipped at line 1, column 1: <br> isn't closed, has no content, or can't be edited this way: close it, or edit its attributes (err)
  tl: -: skipped at line 1, column 14: <q> isn't closed, has no content, or can't be edited this way: close it, or edit its attributes (err)
  [2]
  $ printf '<br>a<p>b</p><q>c' | tl prepend --skip 'br, p, q' x
  <br>a<p>xb</p><q>xc (no-eol)
  tl: -: skipped at line 1, column 1: <br> isn't closed, has no content, or can't be edited this way: close it, or edit its attributes (err)
  [2]
  $ printf '<ul><li>a<li>b</ul><table><tr><td>c</table>' | tl fill --skip 'li, tbody, td' x
  <ul><li>x<li>x</ul><table><tr><td>x</table> (no-eol)
  tl: -: skipped at line 1, column 27: browsers add an element before this, which has no tag: write its start tag, or drop a stray end tag (err)
  [2]
  $ printf '<div><q>a<p>b</div><q>c' | tl remove --skip 'div, q'
  <q>c (no-eol)
  tl: -: skipped at line 1, column 20: <q> isn't closed, has no content, or can't be edited this way: close it, or edit its attributes (err)
  [2]
  $ printf '<svg><title><b>x</b></title></svg><b>y</b>' | tl set b k v
  tl: -: at line 1, column 13: <b> is a tag to browsers, and text by the names of tags alone: move it out of the element it is in (err)
  [2]
  $ printf '<svg><title><b>x</b></title></svg><b>y</b>' | tl set --skip b k v
  <svg><title><b>x</b></title></svg><b k="v">y</b> (no-eol)
  tl: -: skipped at line 1, column 13: <b> is a tag to browsers, and text by the names of tags alone: move it out of the element it is in (err)
  [2]
  $ printf '<svg><title><b k>x</b></title></svg><b k>y</b>' | tl unset --skip b k
  <svg><title><b k>x</b></title></svg><b>y</b> (no-eol)
  tl: -: skipped at line 1, column 13: <b> is a tag to browsers, and text by the names of tags alone: move it out of the element it is in (err)
  [2]
  $ printf '<svg><title><b>x</b></title></svg><b>y</b>' | tl remove --skip b
  <svg><title><b>x</b></title></svg> (no-eol)
  tl: -: skipped at line 1, column 13: <b> is a tag to browsers, and text by the names of tags alone: move it out of the element it is in (err)
  [2]
  $ printf '<svg></svg><style>a</style><p>b</p>' | tl append --skip 'style, p' '<'
  tl: -: a browser may read the text as markup in the element at line 1, after svg at line 1: leave out '<' and '&', or move the element before it (err)
  [2]
  $ printf '<p>\377</p></p>' | tl set --skip p k v | LC_ALL=C sed -n l
  <p k="v">\377</p></p>$
  tl: -: skipped at line 1, column 15: browsers add an element before this, which has no tag: write its start tag, or drop a stray end tag (err)
  $ printf '<p>a</p></p>' | tl append --skip --strict --html p '<hr>'
  tl: -: browsers build another tree than is meant by the edit that begins at line 1, column 1; --strict refuses it (err)
  [2]

Comments are removed in a page's own bytes: all, or those in whose text a regular expression matches. A conditional comment is one.

  $ printf '<!doctype html><!--a-->\n<P>b<!--[if IE]><p>c<![endif]--><!---->d<!-->e' >noted
  $ tl remove --comments noted
  <!doctype html>
  <P>bde (no-eol)
  $ tl remove --comments='\[if ' noted
  <!doctype html><!--a-->
  <P>b<!---->d<!-->e (no-eol)
  $ tl remove --comments='^$' --dry-run noted
  noted:2:33
  noted:2:41
  $ tl remove -v --comments=^a --diff noted
  --- noted
  +++ noted
  @@ -1,2 +1,2 @@
  -<!doctype html><!--a-->
  +<!doctype html>
   <P>b<!--[if IE]><p>c<![endif]--><!---->d<!-->e
  \ No newline at end of file
  tl: noted: 1 place (err)
  $ tl remove --comments=x noted
  <!doctype html><!--a-->
  <P>b<!--[if IE]><p>c<![endif]--><!---->d<!-->e (no-eol)
  [1]
  $ cp noted other && tl remove -i.bak --comments noted other
  $ cat noted other noted.bak
  <!doctype html>
  <P>bde<!doctype html>
  <P>bde<!doctype html><!--a-->
  <P>b<!--[if IE]><p>c<![endif]--><!---->d<!-->e (no-eol)
  $ printf 'a<!--b-->c' | tl remove --comments
  ac (no-eol)
  $ printf 'a<!--b-->c' | tl remove --comments -
  ac (no-eol)

Where two texts would become something else together `</>` stands between them.

  $ printf 'AT&am<!--x-->p; <<!--y-->p>' | tl remove --comments
  AT&am</>p; <</>p> (no-eol)
  $ printf '<script><!--a--></script><title><!--b--></title><![CDATA[c]]><!d>e' | tl remove --comments
  <script><!--a--></script><title><!--b--></title>e (no-eol)
  $ printf '<svg><title>a<!--b--></title></svg>' | tl remove --comments
  tl: -: the comment at line 1, column 14 can't be removed: by the names of tags alone it is text (err)
  [2]
  $ printf '<p>\377<!--a-->\351' | tl remove --comments | LC_ALL=C sed -n l
  <p>\377\351$
  $ tl remove --comments='(' noted
  tl: invalid regular expression: (: regex parse error at 0..1: unclosed group (err)
  [2]
  $ tl remove 2>&1 | sed -n 2p
    <SELECTOR>
