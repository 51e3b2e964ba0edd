Pages as trees: `tl outline`.

What an outline says of a tag selects it. Texts of white space alone have no line.

  $ printf '<!DOCTYPE html>\n<title>My page</title>\n<body class="home wide">\n<!-- menu -->\n<ul id=menu>\n<li><a href=/x title=t>Bread\n &amp; butter</a>\n<li><input type=text name=q required>\n</ul>\n' >page.html
  $ tl outline page.html
  <!DOCTYPE html>
  html
    head
      title
        "My page"
    body.home.wide
      <!-- menu -->
      ul#menu
        li
          a[href="/x"]
            "Bread"
        li
          input[name="q"][type="text"]
  $ tl outline -n page.html
  0\x09<!DOCTYPE html> (esc)
  1\x09html (esc)
  2\x09  head (esc)
  3\x09    title (esc)
  4\x09      "My page" (esc)
  5\x09    "" (esc)
  6\x09  body.home.wide (esc)
  7\x09    "" (esc)
  8\x09    <!-- menu --> (esc)
  9\x09    "" (esc)
  10\x09    ul#menu (esc)
  11\x09      "" (esc)
  12\x09      li (esc)
  13\x09        a[href="/x"] (esc)
  14\x09          "Bread" (esc)
  15\x09        "" (esc)
  16\x09      li (esc)
  17\x09        input[name="q"][type="text"] (esc)
  18\x09        "" (esc)
  19\x09    "" (esc)
  $ tl select -n 'a[href="/x"]' page.html
  13
  $ tl select -n 'input[name="q"][type="text"]' page.html
  17
  $ printf '<p id="a:b" class="1x -y w/2 ü"><a href="?q=\\&quot;&#10;">x' | tl outline
  html
    head
    body
      p#a\:b.\31 x.\-y.w\/2.ü
        a[href="?q=\\\"\0a "]
          "x"
  $ printf '<p id="a:b" class="1x -y w/2 ü"><a href="?q=\\&quot;&#10;">x' | tl select -n 'p#a\:b.\31 x.\-y.w\/2.ü'
  3
  $ printf '<p id="a:b" class="1x -y w/2 ü"><a href="?q=\\&quot;&#10;">x' | tl select -n 'a[href="?q=\\\"\0a "]'
  4

Past 64 tags around a node, how many there are stands in its line: so an outline is no longer than a number of times its page.

  $ printf '<b>%.0s' $(seq 66) | tl outline | tail -3 | sed 's/^ *//'
  (65) b
  (66) b
  (67) b
  $ printf '<b>%.0s' $(seq 66) | tl outline | awk '{ print length }' | tail -3
  134
  134
  134
  $ printf '<b>%.0s' $(seq 100000) >deep
  $ tl outline deep | tail -1 | sed 's/^ *//'
  (100001) b
  $ tl outline deep | wc -l
  100003

Of several files each line has its name.

  $ printf '<p>x' >a
  $ printf '<i>' >b
  $ tl outline a b
  a:html
  a:  head
  a:  body
  a:    p
  a:      "x"
  b:html
  b:  head
  b:  body
  b:    i
  $ tl outline --no-name a b
  html
    head
    body
      p
        "x"
  html
    head
    body
      i
