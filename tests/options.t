Options beside one another.

  $ printf '<p a.b="1&amp;2">x&amp;y<p>z' >one
  $ printf '<p>x<table><td><a href=y>z</table>' >two
  $ printf '<p a="1&amp;2">x' >three

Of two that say where pages go, of two policies, and of two that say what is written of a node, one alone is taken.

  $ for words in '-i --dry-run' '--backup .o --dry-run' '--diff --dry-run'; do tl set $words p k v one 2>&1 | head -1; done
  error: the argument '--in-place' cannot be used with '--dry-run'
  error: the argument '--backup <SUFFIX>' cannot be used with '--dry-run'
  error: the argument '--diff' cannot be used with '--dry-run'
  $ tl sanitize --comments --documents one 2>&1 | head -1
  error: the argument '--comments' cannot be used with '--documents'
  $ for flag in '-a a.b' -t -H -n -c; do tl select --tree $flag p one 2>&1 | head -1; done
  error: the argument '--tree' cannot be used with '--attribute <NAME>'
  error: the argument '--tree' cannot be used with '--text'
  error: the argument '--tree' cannot be used with '--inside'
  error: the argument '--tree' cannot be used with '--number'
  error: the argument '--tree' cannot be used with '--count'
  $ for flag in '-a a.b' -t -H -n -c; do tl select --json $flag p one 2>&1 | head -1; done
  error: the argument '--json' cannot be used with '--attribute <NAME>'
  error: the argument '--json' cannot be used with '--text'
  error: the argument '--json' cannot be used with '--inside'
  error: the argument '--json' cannot be used with '--number'
  error: the argument '--json' cannot be used with '--count'
  $ cat one
  <p a.b="1&amp;2">x&amp;y<p>z (no-eol)

The page's own bytes of an element: up to its end tag, or to where it ends without one. None where it has no tag of its own.

  $ printf '<UL CLASS=x><LI>a &amp b<li>c</UL><p><B>d</B>' >own
  $ tl select --source 'li, b' own
  <LI>a &amp b
  <li>c
  <B>d</B>
  $ tl select --source 'ul, p' own
  <UL CLASS=x><LI>a &amp b<li>c</UL>
  <p><B>d</B>
  $ tl select --source -1 'li' own; tl select --source -0 b own | od -An -c
  <LI>a &amp b
     <   B   >   d   <   /   B   >  \0
  $ tl select --source body own; tl select --source 'tbody' two
  [1]
  $ tl select --source 'table, a' two one
  two:<table><td><a href=y>z</table>
  two:<a href=y>z
  $ for flag in '-a a.b' -t -H -n -c --json --where --csv; do tl select --source $flag p one 2>&1 | head -1; done
  error: the argument '--source' cannot be used with '--attribute <NAME>'
  error: the argument '--source' cannot be used with '--text'
  error: the argument '--source' cannot be used with '--inside'
  error: the argument '--source' cannot be used with '--number'
  error: the argument '--source' cannot be used with '--count'
  error: the argument '--source' cannot be used with '--json'
  error: the argument '--source' cannot be used with '--where'
  error: the argument '--source' cannot be used with '--csv'

In columns the name of the file is the first value of each record, also where a value has line feeds.

  $ printf '<a title="1\n2" href=x>y</a><a>' >'c, d'
  $ tl select --csv -a title -a href a two 'c, d'
  two,,y
  "c, d","1
  2",x
  "c, d",,
  $ tl select --csv -a title a 'c, d' one --no-name
  "1
  2"
  ""
  $ tl select --tsv -a title -t a two 'c, d'
  two\x09\x09z (esc)
  c, d\x091\x5cn2\x09y (esc)
  c, d\x09\x09 (esc)
  $ tl select --csv -t --with-name p one
  one,x&y
  one,z
  $ tl table one two; tl table --tsv --with-name two
  two,z
  two\x09z (esc)

No names of files, of each command that names them.

  $ for command in links text table print outline sanitize; do tl $command --no-name one two >said; grep -c : said; done
  0
  0
  0
  0
  0
  0
  [1]

Values and texts of nodes.

  $ tl select -a a.b p one
  1&2
  $ tl text --in p one
  x&y
  z
  $ tl text -w --in p one
  x&y
  z

A text that is empty is found as others are.

  $ printf '<p>a<br>b' | tl text --in br
  (empty)
  $ printf '<p>a<br>b' | tl text -w --in br
  $ printf '<p>a<br>b' | tl text --in i
  [1]
  $ printf '<p>a<br>b' | tl text -w --in i
  [1]

What is wrong with the words is said on standard error; where that can't be written, a write failed.

  $ tl show 2>/dev/full
  [4]
  $ tl select 2>&-
  [4]
  $ tl select 'p[' one 2>/dev/full
  [2]
