What is asked of pages: their text line by line, their outline, tables, links, fields of nodes.

The text of a page, block by block.

  $ printf '' | tl text -w
  $ printf ' \n\t' | tl text -w
  $ printf 'a  b\nc' | tl text -w
  a b c
  $ printf '<p>a</p>b<p>c' | tl text -w
  a
  (empty)
  b
  (empty)
  c
  $ printf 'a<b>b</b>c' | tl text -w
  abc
  $ printf '<td>a</td><td>b</td>' | tl text -w
  ab
  $ printf '<table><td>a</td><td>b</td></table>' | tl text -w
  a\x09b (esc)
  $ printf 'a<br>b' | tl text -w
  a
  b
  $ printf 'a<!-- x -->b' | tl text -w
  ab
  $ printf '<script>x</script>a<style>y</style>b' | tl text -w
  ab
  $ printf '<SCRIPT>x<p>y</p></SCRIPT>a' | tl text -w
  a
  $ printf '<select><option>A</option><option>B</option></select>' | tl text -w
  A
  B
  $ printf '<select><option>A<option>B</select>' | tl text -w
  A
  B
  $ printf '<figure>a<figcaption>b</figcaption></figure>c' | tl text -w
  a
  b
  c
  $ printf '<fieldset><legend>a</legend>b</fieldset>' | tl text -w
  a
  b
  $ printf '<details><summary>a</summary>b</details>' | tl text -w
  a
  b
  $ printf '<table><caption>a</caption><tr><td>b</td></tr></table>' | tl text -w
  a
  b
  $ printf '<aside>a</aside><address>b</address>c' | tl text -w
  a
  b
  c
  $ printf '<form>a</form><dialog>b</dialog><menu>c</menu>d' | tl text -w
  a
  c
  d
  $ printf '<html><body>a</body></html>b' | tl text -w
  ab
  $ printf '<optgroup>a</optgroup><center>b</center><hgroup>c</hgroup><search>d</search>e' | tl text -w
  a
  b
  c
  d
  e
  $ printf 'é<i>😀</i> é' | tl text -w
  é😀 é
  $ printf '<p>&amp;</p>' | tl text -w
  &

The outline of a page: a tree of selectors.

  $ printf '' | tl outline
  html
    head
    body
  $ printf '<p>a<br></p>\n' | tl outline
  html
    head
    body
      p
        "a"
        br
  $ printf '<!--a\nb-->' | tl outline
  <!-- a -->
  html
    head
    body
  $ printf '\n  a  b \nc' | tl outline
  html
    head
    body
      "a b"
  $ printf '<p><b></b><i></i></p>c' | tl outline
  html
    head
    body
      p
        b
        i
      "c"
  $ printf '<p><b><i></i></b></p><u></u>' | tl outline
  html
    head
    body
      p
        b
          i
      u
  $ printf '<a id="x" class=" y  z " href="/q">' | tl outline
  html
    head
    body
      a#x.y.z[href="/q"]
  $ printf '<a href="/q" name="n" title="t">' | tl outline
  html
    head
    body
      a[name="n"][href="/q"]
  $ printf '<a id="" class="" href="">' | tl outline
  html
    head
    body
      a[href=""]
  $ printf '<input type name="a\\b">' | tl outline
  html
    head
    body
      input[name="a\\b"][type=""]
  $ printf '<p id="a:b" class="1x -y é w/2">' | tl outline
  html
    head
    body
      p#a\:b.\31 x.\-y.é.w\/2
  $ printf '<p id="a\tb"><o:p>' | tl outline
  html
    head
    body
      p#a\09 b
        o\:p
  $ printf '<a href="\177\n">' | tl outline
  html
    head
    body
      a[href="\7f \0a "]
  $ printf '<?a name="b">c' | tl outline
  <!-- ?a name="b" -->
  html
    head
    body
      "c"

Each node with its number.

  $ printf '<p>a<br></p>\n' | tl outline -n
  0\x09html (esc)
  1\x09  head (esc)
  2\x09  body (esc)
  3\x09    p (esc)
  4\x09      "a" (esc)
  5\x09      br (esc)
  6\x09    "" (esc)
  $ printf '<p>\n<b>' | tl outline -n
  0\x09html (esc)
  1\x09  head (esc)
  2\x09  body (esc)
  3\x09    p (esc)
  4\x09      "" (esc)
  5\x09      b (esc)

How deep a node is, where it is very deep.

  $ python3 -c 'print("<b>" * 65, end="")' | tl outline | tail -n 1
                                                                                                                                  (66) b
  $ python3 -c 'print("<b>" * 66, end="")' | tl outline | tail -n 1
                                                                                                                                  (67) b
  $ python3 -c 'print("<b>" * 1001, end="")' | tl outline | tail -n 1
                                                                                                                                  (1002) b

The rows and cells of a table, of the number that is asked for, from 1.

  $ printf '<table><tr><td>a</td><td>b</td></tr></table>' | tl table
  a,b
  $ printf '<table><thead><tr><th>h</th></tr></thead><tbody><tr><td>b</td></tr></tbody></table>' | tl table
  h
  b
  $ printf '<table><tfoot><tr><td>f</td></tr></tfoot><tr><td>r</td></tr></table>' | tl table
  r
  f
  $ printf '<table><tr><td>o<table><tr><td>i</td></tr></table></td></tr></table>' | tl table
  o i
  $ printf '<table><tr><td>o<table><tr><td>i</td></tr></table></td></tr></table>' | tl table --number 2
  i
  $ printf '<table></table><table><tr><td>z</td></tr></table>' | tl table
  $ printf '<table></table><table><tr><td>z</td></tr></table>' | tl table --number 2
  z
  $ printf '<TABLE><TR><TD colspan="2">a<br>b</TD></TR></TABLE>' | tl table
  a b,a b
  $ printf '<table><tr>x<b>y</b><td>z</td></tr><p><tr><td>w</td></tr></p></table>' | tl table
  z
  w
  $ printf '<table><tr><td>a&amp;b<script>c</script></td></tr></table>' | tl table
  a&b
  $ printf '<table><tbody><tbody><tr><td>n</td></tr></tbody></tbody></table>' | tl table
  n

A table whose lines are out of proportion to the page is refused, at its start tag.

  $ python3 -c 'print("<table><tr>" + "<td colspan=1000>" * 40 + "<tr>", end="")' | tl table | wc -c
  80000
  $ python3 -c 'print("<table><tr>" + "<td colspan=1000>" * 40 + "<tr>" * 2, end="")' | tl table
  tl: -: the table at byte 0 has too many values (err)
  [2]
  $ printf '<table><tr><td>x</table><p>y</p><table><tr><td colspan=1000>%0100d' 0 | tl table --number 2
  tl: -: the table at byte 32 has too many values (err)
  [2]
  $ printf '<table><tr><td>x</table><p>y</p><table><tr><td colspan=1000>%0100d' 0 | tl table
  x

There is no such table.

  $ printf '' | tl table
  [1]
  $ printf '<table></table>' | tl table --number 2
  [1]
  $ printf '<tr><td>x</td></tr>' | tl table
  [1]

Links, in the order of nodes and keys.

  $ printf '' | tl links
  [1]
  $ printf '<p>a</p>' | tl links
  [1]
  $ printf '<a href>x</a><a href="">y</a>' | tl links
  (empty)
  (empty)
  $ printf '<img srcset="c" src="b"><a href="d"></a>' | tl links
  c
  b
  d
  $ printf '<video poster="p"></video><form action="f"></form>' | tl links
  p
  f

Of some attributes alone.

  $ printf '<a href=1><img SRC=2><a ping="3 4" href=5>' >some
  $ tl links -a src some
  2
  $ tl links -a HREF -a ping some
  1
  3
  4
  5
  $ tl links -a cite some
  [1]
  $ printf '<svg><a xlink:href=1></a></svg>' | tl links -a href
  1

Where links lead: from the URL of the page and its first base.

  $ printf '<a href=x><a href="/y?a b"><a href="#z"><a href=""><a href=mailto:m@n><a href="HTTP://B.org">' >led
  $ tl links --base https://a.org/d/e.html led
  https://a.org/d/x
  https://a.org/y?a%20b
  https://a.org/d/e.html#z
  https://a.org/d/e.html
  mailto:m@n
  http://b.org/
  $ tl links --base https://a.org/d/e.html --internal led
  https://a.org/d/x
  https://a.org/y?a%20b
  https://a.org/d/e.html#z
  https://a.org/d/e.html
  $ tl links --base https://a.org/d/e.html --external led
  mailto:m@n
  http://b.org/
  $ printf '<a href=x><base><base href=https://b.org/f/><base href=/g/>' | tl links --base https://a.org/
  https://b.org/f/x
  https://b.org/f/
  https://b.org/g/
  $ printf '<a href=x><base href=https://b.org/f/>' | tl links --base https://a.org/ --internal
  [1]
  $ printf '<base href=javascript:1><a href=x>' | tl links --base https://a.org/ -a href
  javascript:1
  https://a.org/x
  $ printf '<template><base href=/t/></template><a href=x>' | tl links --base https://a.org/
  https://a.org/x
  $ printf '<a href="http://["><a href=x>' | tl links --base https://a.org/
  http://[
  https://a.org/x
  $ printf '<a href="http://["><a href=x>' | tl links --base https://a.org/ --internal
  https://a.org/x
  $ printf '<a href="http://[">' | tl links --base https://a.org/ --external
  [1]
  $ printf '<img srcset="a 1x, b 2x">' | tl links --base https://a.org/
  https://a.org/a
  https://a.org/b
  $ printf '<a href=x>' | tl links -q --base https://a.org/ --external
  [1]

A base of more than 4096 bytes counts for nothing.

  $ python3 -c 'print("<base href=/" + "a" * 4094 + "/><a href=x>", end="")' | tl links --base https://a.org/ | tail -1 | wc -c
  4111
  $ python3 -c 'print("<base href=/" + "a" * 4095 + "/><a href=x>", end="")' | tl links --base https://a.org/ | tail -1
  https://a.org/x

What is no URL; hosts without a base.

  $ tl links --base a.org led
  tl: invalid URL: a.org: relative URL without a base (err)
  [2]
  $ tl links --internal led
  error: the following required arguments were not provided: (err)
  ...
  [2]
  $ tl links --base https://a.org --internal --external led
  error: the argument '--internal' cannot be used with '--external' (err)
  ...
  [2]

Values of nodes in columns, of several keys, or of keys and the text.

  $ printf '<a href=1 class="b c" title="x\ty">T <b>u</b>\n</a><A HREF="2,3">v</A><a>"</a><svg><a viewBox=4 /></svg>' >rows
  $ tl select -a href -a class a rows
  1\x09b c (esc)
  2,3\x09 (esc)
  \x09 (esc)
  \x09 (esc)
  $ tl select -a title -t a rows
  x\x5cty\x09T u (esc)
  \x09v (esc)
  \x09" (esc)
  \x09 (esc)
  $ tl select -a HREF -a viewBox --csv a rows
  1,
  "2,3",
  ,
  ,4
  $ tl select -t --csv a rows
  T u
  v
  """"
  ""
  $ tl select -a href --tsv -m2 a rows
  1
  2,3
  $ tl select -a href -a class -c a rows
  error: the argument '--attribute <NAME>' cannot be used with '--count' (err)
  ...
  [2]
  $ tl select -q -a href -a class a rows
  $ tl select -l -a href -a class a rows
  rows
  $ tl select -a href -a class i rows
  [1]
  $ tl select --csv a rows
  tl: no column: give -a NAME or -t (err)
  [2]
  $ tl select --csv --tsv -t a rows
  error: the argument '--csv' cannot be used with '--tsv' (err)
  ...
  [2]
  $ tl select -a href -a class a rows rows | head -2
  rows\x091\x09b c (esc)
  rows\x092,3\x09 (esc)

Where nodes begin. Of one that browsers put in it is where the next one does; columns are characters.

  $ printf '<p>a\n<p id=x>\303\251<b>c</b><table><td>d' >places
  $ tl select --where b places
  places:2:10:<b>c</b>
  $ tl select --where -a id p places
  places:2:1:x
  $ tl select --where -n tbody places
  places:2:25:10
  $ tl select --where -t html places - <places
  places:1:1:a
  places:écd
  -:1:1:a
  -:écd
  $ tl select --where -t td --no-name places
  2:25:d
  $ tl select --where -t td <places
  2:25:d
  $ tl select --where i places
  [1]
  $ tl select --where -c b places
  error: the argument '--where' cannot be used with '--count' (err)
  ...
  [2]
  $ tl select --where -a id -a class b places
  tl: --where can't be used with several columns (err)
  [2]

Tables with tabs, and with the words of a cell that spans once.

  $ printf '<table><tr><td colspan=2 rowspan=2>a<td>b,c<tr><td>d</table>' >spans
  $ tl table spans
  a,a,"b,c"
  a,a,d
  $ tl table --as-written spans
  a,,"b,c"
  ,,d
  $ tl table --tsv spans
  a\x09a\x09b,c (esc)
  a\x09a\x09d (esc)
  $ tl table --tsv --as-written spans
  a\x09\x09b,c (esc)
  \x09\x09d (esc)

All tables, those in some elements, and tables as JSON.

  $ printf '<table><tr><td>1</table><div id=d><table><tr><td>a,b<td>"<tr><td colspan=2>c</table><p><table id=t><tr><td>z</table></div>' >tables
  $ tl table --all tables | sed 's/^$/-/'
  1
  -
  "a,b",""""
  c,c
  -
  z
  $ tl table --all --in '#d' --tsv --as-written tables | sed 's/^$/-/'
  a,b\x09" (esc)
  c\x09 (esc)
  -
  z
  $ tl table --in '#d' tables
  "a,b",""""
  c,c
  $ tl table --in '#d' -n 2 tables
  z
  $ tl table --in '#t, td' tables
  z
  $ tl table --in '#d' -n 3 tables
  [1]
  $ tl table --in b --all tables
  [1]
  $ printf '<table id=o><tr><td><table><tr><td>i</table>o</table>' | tl table --in td
  i
  $ printf '<table id=o><tr><td><table><tr><td>i</table>o</table>' | tl table --all --in '#o' --json
  [["i o"]]
  [["i"]]
  $ tl table --json tables
  [["1"]]
  $ tl table --json --all --as-written tables
  [["1"]]
  [["a,b","\""],["c",""]]
  [["z"]]
  $ tl table --jsonl -n 2 tables tables
  {"file":"tables","rows":[["a,b","\""],["c","c"]]}
  {"file":"tables","rows":[["a,b","\""],["c","c"]]}
  $ tl table --jsonl <tables
  {"file":"-","rows":[["1"]]}
  $ tl table --json --with-name tables tables
  [["1"]]
  [["1"]]
  $ tl table --all tables --with-name
  tables,1
  tables,
  tables,"a,b",""""
  tables,c,c
  tables,
  tables,z
  $ printf '<table></table><table><tr></table><table><tr><td rowspan=2>\303\251\001<td>\n\\<tr></table>' | tl table --json --all
  []
  [[]]
  [["é\u0001","\\"],["é\u0001",""]]
  $ tl table --json --tsv tables 2>&1 | head -1
  error: the argument '--json' cannot be used with '--tsv'
  $ tl table --json --jsonl tables 2>&1 | head -1
  error: the argument '--json' cannot be used with '--jsonl'
  $ tl table --all -n 1 tables 2>&1 | head -1
  error: the argument '--all' cannot be used with '--number <N>'
  $ tl table --in 'b[' tables
  tl: invalid selector: at byte 2: expected a name (err)
    b[ (err)
      ^ (err)
  [2]

The text of all tables together is in proportion to the page.

  $ python3 -c 'print(("<table><tr>" + "<td colspan=1000>" * 30) * 2 + "<tr>", end="")' >wide
  $ tl table wide | wc -c
  30000
  $ tl table --all wide | wc -c
  90001
  $ python3 -c 'print("<table><tr>" + "<td colspan=1000>" * 30 + "</table>" + ("<table><tr>" + "<td colspan=1000>" * 30 + "<tr></table>") * 3, end="")' | tl table --all
  tl: -: the table at byte 1595 has too many values (err)
  [2]
  $ python3 -c 'print("<table><tr>" + "<td colspan=1000>" * 30, end="")' | tl table --json | wc -c
  90004
  $ python3 -c 'print("<table><tr>" + "<td colspan=1000>" * 40, end="")' | tl table --json
  tl: -: the table at byte 0 has too many values (err)
  [2]

Values and texts, by what they say.

  $ printf '<a k="&lt;b&gt; &amp;amp;">&lt;c&gt;</a>' | tl select -a k a
  <b> &amp;
  $ printf '<a k="&lt;b&gt; &amp;amp;">&lt;c&gt;</a>' | tl select -t a
  <c>
  $ printf '<a k="?a&lt=b">x&lt=y</a>' | tl select -a k a
  ?a&lt=b
  $ printf '<a k="?a&lt=b">x&lt=y</a>' | tl select -t a
  x<=y
  $ printf '<a>&#233;<b>&eacute;</b></a>' | tl select -t a
  éé
  $ printf '<x+2ey href="/?a&amp;b">a &lt; b</x+2ey><!--&amp;-->' | tl outline
  html
    head
    body
      x\+2ey[href="/?a&b"]
        "a < b"
      <!-- &amp; -->
