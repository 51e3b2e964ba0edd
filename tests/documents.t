What README.md and docs/COMMANDS.md show, each with the pages that it is shown of.

The first of README.md, and of docs/COMMANDS.md:

  $ printf '<nav><a href="/">x</a><a href="/about">y</a></nav><a href="/z">z</a>' >index.html
  $ tl select -a href 'nav a' index.html
  /
  /about
  $ printf '<p onclick=f()>x<script>y</script><a href="javascript:f()">z' | tl sanitize
  <p>x<a>z</a></p> (no-eol)

  $ printf '<UL><LI><A HREF=/x>Bread &amp; butter</A><LI>3 < 4' | tl select -t li
  Bread & butter
  3 < 4

README.md, Install:

  $ printf '<nav><a href="/x">y</a></nav>' | tl select -a href 'nav a'
  /x
  $ printf '<A HREF=/x>y</A>' | tl set a href /z
  <A HREF="/z">y</A> (no-eol)

docs/COMMANDS.md, `tl`:

  $ printf '<p><img><img></p><img>' >a.html
  $ printf '<p>y</p>' >b.html
  $ tl select -c img a.html b.html
  a.html:3
  b.html:0
  $ printf '<p>a</p><p>b</p><p>c</p><p>d</p><p>e</p><p>f</p><h2 id=x>Title</h2>' >x.html
  $ tl select --json h2 x.html
  [{"attributes":{"id":"x"},"name":"h2","node":15,"start":48,"end":57,"text":"Title"}]
  $ printf '<p onclick="f()">x<!-- y --></p>' >comment.html
  $ tl sanitize comment.html
  <p>x</p> (no-eol)

  $ tl select -l 'img:not([alt])' x.html a.html
  a.html
  $ tl select -q form x.html || echo 'no form'
  no form
  $ tl select --jsonl -m1 p a.html b.html
  {"file":"a.html","attributes":{},"name":"p","node":3,"start":0,"end":3,"text":""}
  {"file":"b.html","attributes":{},"name":"p","node":3,"start":0,"end":3,"text":"y"}

How pages are read:

  $ printf '<UL><LI><A HREF=/x @click="f()">Bread &amp; butter</A><LI>3 < 4' >list.html
  $ tl select -t li list.html
  Bread & butter
  3 < 4
  $ tl select -a @click a list.html
  f()
  $ tl select -t 'body > ul > li:nth-child(2)' list.html
  3 < 4
  $ tl select a list.html
  <a href="/x" @click="f()">Bread &amp; butter</a>

JSON:

  $ tl select --json --tree ul list.html
  [{"attributes":{},"name":"ul","node":3,"start":0,"end":4,"children":[{"attributes":{},"name":"li","node":4,"start":4,"end":8,"children":[{"attributes":{"href":"/x","@click":"f()"},"name":"a","node":5,"start":8,"end":32,"children":[{"attributes":{},"name":null,"node":6,"start":32,"end":50,"text":"Bread & butter"}]}]},{"attributes":{},"name":"li","node":7,"start":54,"end":58,"children":[{"attributes":{},"name":null,"node":8,"start":58,"end":63,"text":"3 < 4"}]}]}]

Trees:

  $ printf '<nav id=top>\n<a class="next big" href=/2 title=t>Bread\n &amp; butter</a><input name=q required></nav><!-- end -->' >tree.html
  $ tl outline tree.html
  html
    head
    body
      nav#top
        a.next.big[href="/2"]
          "Bread"
        input[name="q"]
      <!-- end -->
  $ tl select -n 'a.next.big[href="/2"]' tree.html
  5
  $ tl select --csv -a href -a title -t a tree.html
  /2,t,Bread & butter

Where links lead:

  $ printf '<base href=/d/><a href=x>1</a><a href=//b.org/>2</a><a href="http://[">3</a>' >where.html
  $ tl links --base https://a.org/ where.html
  https://a.org/d/
  https://a.org/d/x
  https://b.org/
  http://[
  $ tl links --base https://a.org/ --external where.html
  https://b.org/

Selectors:

  $ printf '<p><img src="d.png"><img src=e.gif></p>' >shelf
  $ tl select -a src 'p > img[src$=".png"]' shelf
  d.png
  $ tl select 'p:hover' none none
  tl: invalid selector: at byte 2: unknown pseudo-class: `hover` (a parsed page has no such state) (err)
    p:hover (err)
      ^ (err)
  [2]

README's edit:

  $ printf '<!DOCTYPE HTML PUBLIC "x">\n<IMG SRC=a.png><p>3 < 4' | tl set img loading lazy
  <!DOCTYPE HTML PUBLIC "x">
  <IMG loading="lazy" SRC=a.png><p>3 < 4 (no-eol)

Edits in a page's own bytes:

  $ printf '<!doctype html PUBLIC "x">\n<IMG SRC=a.png><img src="b.png"  >' >album.html
  $ tl set img loading lazy album.html
  <!doctype html PUBLIC "x">
  <IMG loading="lazy" SRC=a.png><img loading="lazy" src="b.png"  > (no-eol)
  $ tl set --dry-run '[src^=b]' src c.png album.html
  album.html:2:16
  $ tl set -i '[src^=b]' src c.png album.html
  $ tl unset img src album.html
  <!doctype html PUBLIC "x">
  <IMG><img  > (no-eol)
  $ printf '<ul>\n<LI>Tea & milk\n<li>Bread</ul><CENTER><img src=a.png></CENTER>\n' >list.html
  $ tl rename center div list.html
  <ul>
  <LI>Tea & milk
  <li>Bread</ul><div><img src=a.png></div>
  $ tl remove 'li:first-child' list.html
  <ul>
  <li>Bread</ul><CENTER><img src=a.png></CENTER>
  $ tl append li ', 2 < 3' list.html
  <ul>
  <LI>Tea & milk
  , 2 &lt; 3<li>Bread, 2 &lt; 3</ul><CENTER><img src=a.png></CENTER>
  $ tl after --html 'li:last-child' '<li>Jam' list.html
  <ul>
  <LI>Tea & milk
  <li>Bread</li><li>Jam</ul><CENTER><img src=a.png></CENTER>
  $ tl fill -i center Closed list.html
  $ tl unwrap center list.html
  <ul>
  <LI>Tea & milk
  <li>Bread</ul>Closed
  $ printf 'Tea<!-- hot --> & milk<!--[if IE]><hr><![endif]-->\n' >menu.html
  $ tl remove --comments menu.html
  Tea & milk
  $ tl remove --comments='^\[if ' menu.html
  Tea<!-- hot --> & milk
  $ printf '<br>Tea<p>Bread</p><q>Jam' | tl append --skip 'br, p, q' '!'
  <br>Tea<p>Bread!</p><q>Jam (no-eol)
  tl: -: skipped at line 1, column 1: <br> isn't closed, has no content, or can't be edited this way: close it, or edit its attributes (err)
  tl: -: skipped at line 1, column 20: <q> isn't closed, has no content, or can't be edited this way: close it, or edit its attributes (err)
  [2]
  $ printf '<p>Bread</p>' | tl append --html p '<div>x</div>'
  <p>Bread<div>x</div></p> (no-eol)
  tl: -: browsers build another tree than is meant by the edit that begins at line 1, column 1 (err)
  $ printf '<table><tr><td>a</table>' | tl append --strict tr x
  tl: -: browsers build another tree than is meant by the edit that begins at line 1, column 8; --strict refuses it (err)
  [2]

Safe pages:

  $ printf '<p onclick="x()">a<script>b</script><b>c' | tl sanitize
  <p>a<b>c</b></p> (no-eol)
  $ printf '<p class=c>x <i>y</i> <a href="https://z.example">w</a></p>' >page.html
  $ tl sanitize --tags p,b,a --keys href --links https: page.html
  <p>x y <a href="https://z.example">w</a></p> (no-eol)
  $ tl sanitize --tags p --keys onclick page.html
  tl: a policy can't allow the attribute `onclick`: its value is a script (err)
  [2]

`tlq`:

  $ printf '<a>y</a>' | tlq edit 'set 0 href /x'
  <a href="/x">y</a> (no-eol)
  $ printf 'a<p>b<br>c</p><!-- d -->' | tlq text
  abc (no-eol)
  $ printf '<a><b></a></b>' | tlq print
  <a><b></b></a> (no-eol)
  $ printf '<div><p>x</p></div>' | tlq select 'div > p'
  1

Tables, and statuses of `tl`:

  $ printf '<table id=prices><thead><tr><th>Item<th>Price, EUR</thead><tr><td>Rye<td>3.20<tr><td>White "soft"<td> 2,10\n</table>' >prices.html
  $ tl table prices.html
  Item,"Price, EUR"
  Rye,3.20
  "White ""soft""","2,10"
  $ tl table --number 2 prices.html
  [1]
  $ tl table --in '#prices' --json prices.html
  [["Item","Price, EUR"],["Rye","3.20"],["White \"soft\"","2,10"]]
  $ tl print none
  tl: none: No such file or directory (err)
  [4]
