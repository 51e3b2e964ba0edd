The program `tlq`, for each status that it ends with.

A page printed:

  $ printf '<a>y</a>' | tlq print
  <a>y</a> (no-eol)

An empty page printed:

  $ tlq print

The texts of a page:

  $ printf 'a<p>b<br>c</p><!-- d -->' | tlq text
  abc (no-eol)

A page printed again:

  $ printf "<p a='x\"y'>z</p>" | tlq again
  <p a="x" y>z</p> (no-eol)

A page edited:

  $ printf '<a>y</a>' | tlq edit 'set 0 href /x'
  <a href="/x">y</a> (no-eol)

The tags of a class:

  $ printf '<p class="k k"><br class=k>' | tlq class k
  0
  1

The tag of an id:

  $ printf '<p id=a><p id=b>' | tlq id b
  1

No tag of an id:

  $ printf '<p id=a>' | tlq id b

A selector:

  $ printf '<div><p></p></div>' | tlq select 'div p'
  1

No steps:

  $ printf '<a>y</a>' | tlq edit ''
  <a>y</a> (no-eol)

The tag of the empty id:

  $ printf '<p><p id="">' | tlq id ''
  1

The tags of the empty class:

  $ printf '<p class="k k">' | tlq class ''

The empty selector:

  $ printf '<a>y</a>' | tlq select ''
  tlq: refused (err)
  [1]

A text that is no selector:

  $ printf '<p>a</p>' | tlq select ,a
  tlq: refused (err)
  [1]

A step without its node:

  $ printf '<a></a>' | tlq edit 'push 5 0'
  tlq: refused (err)
  [1]

A circle printed:

  $ printf '<a></a>' | tlq edit 'push 0 0'
  tlq: refused (err)
  [1]

The words '':

  $ printf '<a></a>' | tlq
  tlq: not understood (err)
  [2]

The words 'show':

  $ printf '<a></a>' | tlq show
  tlq: not understood (err)
  [2]

The words 'print print':

  $ printf '<a></a>' | tlq print print
  tlq: not understood (err)
  [2]

The words 'edit':

  $ printf '<a></a>' | tlq edit
  tlq: not understood (err)
  [2]

The words 'select':

  $ printf '<a></a>' | tlq select
  tlq: not understood (err)
  [2]

The words 'id':

  $ printf '<a></a>' | tlq id
  tlq: not understood (err)
  [2]

The words 'class':

  $ printf '<a></a>' | tlq class
  tlq: not understood (err)
  [2]

The words 'again again again':

  $ printf '<a></a>' | tlq again again again
  tlq: not understood (err)
  [2]

The word 'print' before one that is no text:

  $ printf '<a></a>' | tlq print "$(printf '\377')"
  tlq: not understood (err)
  [2]

The word '' before one that is no text:

  $ printf '<a></a>' | tlq "$(printf '\377')"
  tlq: not understood (err)
  [2]

The word 'id' before one that is no text:

  $ printf '<a></a>' | tlq id "$(printf '\377')"
  tlq: not understood (err)
  [2]

A line that is no step:

  $ printf '<a></a>' | tlq edit 'push 0'
  tlq: not understood (err)
  [2]

A page that is no text:

  $ printf '\377' | tlq print
  tlq: not understood (err)
  [2]

Read to the letter, by the grammar of docs/GRAMMAR.md, and printed so: names in their case, references as they stand, a value without
quotes up to a `/`.

  $ printf '<P>a<p>b' | tlq print
  <P>a<p>b</p></P> (no-eol)
  $ printf '<a href=/x>y</a>' | tlq print
  x>y (no-eol)
  $ printf '<p>a<br/><p  k=\047v\047>b' | tlq print
  <p>a<br><p k="v">b</p></p> (no-eol)
  $ printf '<p>a &amp; b</p>' | tlq text
  a &amp; b (no-eol)
  $ printf 'I <3 you' | tlq text
  I\x20 (esc) (no-eol)
  $ printf '<!doctype html><p>a' | tlq edit 'set 0 id x'
  <p id="x">a</p> (no-eol)
  $ printf '<!doctype html\360\237\230\2000' | tlq text
  ���0 (no-eol)

Several steps, one after the other; one that has no such node, tag, place or child.

  $ printf '<a>y</a>' | tlq edit 'set 0 href /x y
  > name 0 b'
  <b href="/x y">y</b> (no-eol)
  $ printf '<a>y</a>' | tlq edit 'set 0 b 1
  > set 0 b 2'
  <a b="2">y</a> (no-eol)
  $ printf '<p>a' | tlq edit 'name 0 b
  > set 1 href /x'
  tlq: refused (err)
  [1]
  $ printf '<p>a' | tlq edit 'pull 0 1'
  tlq: refused (err)
  [1]
  $ printf '<p>a' | tlq edit 'push 0 9'
  tlq: refused (err)
  [1]

Words that say no command: nothing is read.

  $ printf '<a></a>' | { tlq show 2>/dev/null; cat; }
  <a></a> (no-eol)

A page longer than the memory:

  $ head -c 64000000 /dev/zero | tr '\0' a >long
  $ (ulimit -v 40000 && exec tlq print) <long
  tlq: out of memory (err)
  [3]

A full output, a closed output, an input that can not be read:

  $ printf '<a>y</a>' | tlq print >/dev/full
  tlq: read or write failed (err)
  [4]
  $ printf '<a>y</a>' | tlq print >&-
  tlq: read or write failed (err)
  [4]
  $ tlq print <.
  tlq: read or write failed (err)
  [4]
