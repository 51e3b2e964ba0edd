Edits that people make in bulk, each one command over all pages.

  $ cat >one.html <<'END'
  > <!DOCTYPE html>
  > <html lang=en><head><title>Bread &amp; Butter</title>
  > <base href="/shop/"></head>
  > <body class='front page'>
  > <h2>Our Bread</h2><p>See <A HREF=http://a.org/?id=1&amp;utm_source=x>this</A>
  > <a href="rye.html?utm_medium=y#top">rye</a>
  > <h2>Our Bread</h2>
  > <img data-src="loaf.png" srcset="a.png 1x, /b.png 2x"><img src=old.gif>
  > </body></html>
  > END
  $ cat >two.php <<'END'
  > <?php foo("<a href='http://b.org'>"); ?>
  > <div id=our-bread><h2>Our bread</h2><a href='http://b.org/x'>b</a>
  > END
  $ mkdir was; cp one.html two.php was

Links that are encrypted.

  $ tl set --diff '[href^="http:"]' href --replace '^http:' https: one.html two.php | grep '^[-+]'
  --- one.html
  +++ one.html
  -<h2>Our Bread</h2><p>See <A HREF=http://a.org/?id=1&amp;utm_source=x>this</A>
  +<h2>Our Bread</h2><p>See <A HREF="https://a.org/?id=1&amp;utm_source=x">this</A>
  --- two.php
  +++ two.php
  -<div id=our-bread><h2>Our bread</h2><a href='http://b.org/x'>b</a>
  +<div id=our-bread><h2>Our bread</h2><a href="https://b.org/x">b</a>

A prefix for links that begin at the root.

  $ tl set --diff 'base, a[href^="/"]' href --prefix https://c.org one.html two.php | grep '^[-+]'
  --- one.html
  +++ one.html
  -<base href="/shop/"></head>
  +<base href="https://c.org/shop/"></head>

Parameters that track readers.

  $ tl set --diff a href --drop-query 'utm_*' one.html two.php | grep '^[-+]'
  --- one.html
  +++ one.html
  -<h2>Our Bread</h2><p>See <A HREF=http://a.org/?id=1&amp;utm_source=x>this</A>
  -<a href="rye.html?utm_medium=y#top">rye</a>
  +<h2>Our Bread</h2><p>See <A HREF="http://a.org/?id=1">this</A>
  +<a href="rye.html#top">rye</a>

Links that are absolute, and pictures in each size.

  $ tl set --diff a href --base https://c.org/x/ one.html | grep '^[-+]'
  --- one.html
  +++ one.html
  -<a href="rye.html?utm_medium=y#top">rye</a>
  +<a href="https://c.org/shop/rye.html?utm_medium=y#top">rye</a>
  $ tl set --diff img srcset --base https://c.org/x/ one.html | grep '^[-+]'
  --- one.html
  +++ one.html
  -<img data-src="loaf.png" srcset="a.png 1x, /b.png 2x"><img src=old.gif>
  +<img data-src="loaf.png" srcset="https://c.org/shop/a.png 1x, https://c.org/b.png 2x"><img src=old.gif>

Pictures that a script would load.

  $ tl set -i 'img[data-src]:not([src])' src --from data-src one.html two.php
  $ tl unset --diff 'img[data-src]' data-src one.html | grep '^[-+]'
  --- one.html
  +++ one.html
  -<img src="loaf.png" data-src="loaf.png" srcset="a.png 1x, /b.png 2x"><img src=old.gif>
  +<img src="loaf.png" srcset="a.png 1x, /b.png 2x"><img src=old.gif>

A class more.

  $ tl set --diff body class --add-word dark one.html two.php | grep '^[-+]'
  --- one.html
  +++ one.html
  -<body class='front page'>
  +<body class="front page dark">
  tl: two.php: at line 1, column 35: browsers add an element before this, which has no tag: write its start tag, or drop a stray end tag (err)

An id for each heading.

  $ tl set --diff h2 id --from-text one.html two.php | grep '^[-+]'
  --- one.html
  +++ one.html
  -<h2>Our Bread</h2><p>See <A HREF=http://a.org/?id=1&amp;utm_source=x>this</A>
  +<h2 id="our-bread">Our Bread</h2><p>See <A HREF=http://a.org/?id=1&amp;utm_source=x>this</A>
  -<h2>Our Bread</h2>
  +<h2 id="our-bread-2">Our Bread</h2>
  --- two.php
  +++ two.php
  -<div id=our-bread><h2>Our bread</h2><a href='http://b.org/x'>b</a>
  +<div id=our-bread><h2 id="our-bread-2">Our bread</h2><a href='http://b.org/x'>b</a>

Markup from a file, first in the body of each page; a page without that tag is refused, as browsers put one in, and stays.

  $ printf '\n<header>Bread</header>' >header.html
  $ tl prepend -iv --html body @header.html one.html two.php
  tl: one.html: 1 place (err)
  tl: two.php: at line 1, column 35: browsers add an element before this, which has no tag: write its start tag, or drop a stray end tag (err)
  [2]
  $ diff one.html was/one.html | grep '^[0-9]'
  5d4
  9c8
