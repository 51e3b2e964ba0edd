Files that are changed in place: what stays of the old one, what stands beside it, and what is left where it fails.

The owner and the mode stay; another name of the file by a hard link keeps the old bytes.

  $ printf '<a href=/x>y</a>\n' >page
  $ chmod 604 page
  $ chown 1:2 page 2>/dev/null; stat -c '%u:%g %a' page >was
  $ ln page other
  $ tl set -i a k v page
  $ cat page other
  <a k="v" href=/x>y</a>
  <a href=/x>y</a>
  $ stat -c '%u:%g %a' page | cmp - was

An owner that may not be set is not; the mode stays. (A superuser gives up that right here, where there is the program for it.)

  $ setpriv --bounding-set -chown true 2>/dev/null && without='setpriv --bounding-set -chown'; $without tl set -i a k u page
  $ cat page
  <a k="u" href=/x>y</a>
  $ stat -c %a page
  604
  $ chown 1:2 page 2>/dev/null; tl set -i a k v page

The mode stays whole, also where setting an owner takes bits of it away.

  $ printf '<p>1' >bits
  $ chmod 6755 bits
  $ tl set -i p k v bits
  $ stat -c %a bits
  6755
  $ tl set --backup .old p k w bits
  $ stat -c %a bits bits.old
  6755
  6755
  $ rm bits bits.old

A link is followed: the file and its backup stand where the file stands. A later backup takes the place of an earlier one.

  $ mkdir links
  $ ln -s ../page links/link
  $ tl set --backup .old a k w links/link
  $ ls links page*
  page
  page.old
  (empty)
  links:
  link
  $ cat page page.old
  <a k="w" href=/x>y</a>
  <a k="v" href=/x>y</a>
  $ tl set --backup=.old a k x page
  $ cat page page.old
  <a k="x" href=/x>y</a>
  <a k="w" href=/x>y</a>

The backup has the owner and the mode of the page, and stays where a later write fails.

  $ stat -c '%u:%g %a' page.old | cmp - was
  $ (trap '' XFSZ; ulimit -f 0; tl set --backup .old a k z page 2>&1; echo $?) | cat
  tl: page: File too large
  4
  $ cat page page.old
  <a k="x" href=/x>y</a>
  <a k="w" href=/x>y</a>
  $ ls page*
  page
  page.old
  $ rm page.old

So does an earlier backup where the new page can't be written whole, which shows before the backup is made.

  $ printf '<p>1' >small
  $ echo earlier >small.old
  $ (trap '' XFSZ; ulimit -f 2; tl set --backup .old p k "$(head -c 5000 /dev/zero | tr '\0' v)" small 2>&1; echo $?) | cat
  tl: small: File too large
  4
  $ cat small small.old
  <p>1earlier
  $ ls small*
  small
  small.old
  $ (printf '<p>'; head -c 100000 /dev/zero | tr '\0' a) >long
  $ cp long same
  $ (trap '' XFSZ; ulimit -f 50; tl set -i p k v long 2>&1; echo $?) | cat
  tl: long: File too large
  4
  $ (trap '' XFSZ; ulimit -f 50; tl fill -i p "$(cat long)" small 2>&1; echo $?) | cat
  tl: small: File too large
  4
  $ cmp long same; cat small; ls long* small*
  <p>1long
  small
  small.old

What is written is made to last before it takes a name. The backup is a copy, so that the page is never without a file.

  $ python3 "$TOOLS/calls.py" tl set -i p k v small
  open small.tl-0
  write small.tl-0
  owner small.tl-0
  mode small.tl-0
  sync small.tl-0
  rename small.tl-0 small
  $ python3 "$TOOLS/calls.py" tl remove --backup .old p small
  open small.tl-0
  owner small.tl-0
  mode small.tl-0
  sync small.tl-0
  open small.tl-1
  open small.tl-1
  mode small.tl-1
  write small.tl-1
  owner small.tl-1
  mode small.tl-1
  sync small.tl-1
  rename small.tl-1 small.old
  rename small.tl-0 small
  $ python3 "$TOOLS/calls.py" tl set -i b k v small
  [1]
  $ printf '<p>1' >small
  $ ln small other.small
  $ tl set --backup .old p k v small
  $ test other.small -ef small.old
  [1]
  $ rm small small.old other.small long same

A page of which nothing is left is written as any other.

  $ printf '<p>x</p>' >all
  $ tl remove --backup .old p all
  $ wc -c <all
  0
  $ cat all.old
  <p>x</p> (no-eol)
  $ printf '<p>x</p>' >all
  $ tl remove -i p all
  $ wc -c <all
  0
  $ printf '<p>x</p>' | tl remove p
  $ tl remove --dry-run p all.old
  all.old:1:1
  $ rm all all.old

The name of the new file is one that is free; where a hundred are taken, that is said.

  $ echo mine >page.tl-0
  $ tl set -i a k y page
  $ cat page page.tl-0
  <a k="y" href=/x>y</a>
  mine
  $ printf '<b>' >other
  $ tl set --backup .tl-0 b k v other
  $ cat other other.tl-0
  <b k="v"><b> (no-eol)
  $ for number in $(seq 0 99); do echo mine >page.tl-$number; done
  $ tl set -i a k z page
  tl: page: entity already exists (err)
  [4]
  $ cat page.tl-* | sort | uniq -c
      100 mine
  $ cat page
  <a k="y" href=/x>y</a>
  $ rm page.tl-*

What can't be done leaves the old page, and nothing beside it: where a backup can't be written, and of what is no regular file.

  $ tl set --backup /none a k z page
  tl: page: Not a directory (err)
  [4]
  $ cat page
  <a k="y" href=/x>y</a>
  $ ls page*
  page
  $ mkfifo pipe
  $ (timeout 60 sh -c 'printf "<a>" >pipe') & timeout 60 tl set -i a k z pipe
  tl: pipe: not a regular file (err)
  [4]
  $ test -p pipe
  $ ls pipe*
  pipe

A page that may not be read, and one in a folder that may not be written, are told, and those after them are done. (A superuser gives up both rights here.)

  $ setpriv --bounding-set -dac_override,-dac_read_search true 2>/dev/null && without='setpriv --bounding-set -dac_override,-dac_read_search'; echo "exec $without \"\$@\"" >plainly
  $ mkdir kept
  $ printf '<p>1' >closed
  $ cp closed kept/page
  $ cp closed third
  $ chmod 0 closed
  $ chmod 555 kept
  $ sh plainly tl set -i p k v closed kept/page third
  tl: closed: Permission denied (err)
  tl: kept/page: Permission denied (err)
  [4]
  $ sh plainly tl set --backup .old p k v closed kept/page
  tl: closed: Permission denied (err)
  tl: kept/page: Permission denied (err)
  [4]
  $ sh plainly tl select -c p closed kept third
  third:1
  tl: closed: Permission denied (err)
  tl: kept: is a directory; kept/*.html names the pages in it (err)
  [4]
  $ sh plainly tl text closed third
  third:1
  tl: closed: Permission denied (err)
  [4]
  $ chmod 600 closed
  $ chmod 755 kept
  $ cat closed kept/page third
  <p>1<p>1<p k="v">1 (no-eol)
  $ ls kept
  page
  $ rm -r closed kept third plainly

Until it is whole, none but its owner may read the new file, which stays where the program is killed.

  $ (umask 0; ulimit -c 0; ulimit -f 0; tl set -i a k z page; true) >/dev/null 2>&1
  $ stat -c %a page.tl-0
  600
  $ cat page
  <a k="y" href=/x>y</a>
  $ rm page.tl-0

Where what is written can't be, no further page is looked at.

  $ cp page second
  $ tl set a k z page second >/dev/full
  tl: standard output: No space left on device (err)
  [4]
  $ tl set --dry-run a k z page second >/dev/full
  tl: standard output: No space left on device (err)
  [4]

Columns are bytes, from 1, and a line ends with its line feed.

  $ printf '\303\251<a>\r\n\n <a>é<a>\n<a>' | tl set --dry-run a k v
  -:1:3
  -:3:2
  -:3:7
  -:4:1

Where memory runs out, nothing is written, and that is the status.

  $ head -c 1000000 /dev/zero | sed 's/\x00/<p>/g' >tags
  $ cp tags same
  $ (ulimit -v 40000 && exec tl set -i p k v tags)
  tl: tags: out of memory (err)
  [3]
  $ (ulimit -v 40000 && exec tl rename -i p b tags)
  tl: tags: out of memory (err)
  [3]
  $ cmp tags same

What is no page is named by its first bytes, and of a folder or an address in the place of a file it is said what to write.

  $ printf '<p>x' | gzip -c >page.html.gz
  $ tl text page.html.gz
  tl: page.html.gz: not a page, but gzip data; gzip -dc unpacks it (err)
  [2]
  $ tl set p k v page.html.gz
  tl: page.html.gz: not a page, but gzip data; gzip -dc unpacks it (err)
  [2]
  $ gzip -dc page.html.gz | tl text
  x (no-eol)
  $ printf 'PK\003\004x' | tl text
  tl: -: not a page, but a zip archive; unzip -p unpacks it (err)
  [2]
  $ printf '%%PDF-1.4\n' | tl text
  tl: -: not a page, but a PDF; pdftohtml makes pages of it (err)
  [2]
  $ printf '\211PNG\r\n\032\nx' | tl text
  tl: -: not a page, but a picture (PNG) (err)
  [2]
  $ printf 'GIF87ax' | tl text
  tl: -: not a page, but a picture (GIF) (err)
  [2]
  $ printf 'GIF89ax' | tl select p
  tl: -: not a page, but a picture (GIF) (err)
  [2]
  $ printf '\377\330\377x' | tl sanitize
  tl: -: not a page, but a picture (JPEG) (err)
  [2]
  $ printf 'RIFF\000\000\000\000WEBPVP8 ' | tl links
  tl: -: not a page, but a picture (WebP) (err)
  [2]
  $ printf 'RIFF\000\000\000\000WAVEfmt ' | tl text -w
  RIFFWAVEfmt
  $ printf 'PK' | tl text
  PK (no-eol)
  $ mkdir pages
  $ tl text pages
  tl: pages: is a directory; pages/*.html names the pages in it (err)
  [4]
  $ tl set p k v pages
  tl: pages: is a directory; pages/*.html names the pages in it (err)
  [4]
  $ tl text https://x.org/a http://x.org/ ftp://x.org/
  tl: https://x.org/a: no such file; curl -sL 'https://x.org/a' | tl .. reads a page of the web (err)
  tl: http://x.org/: no such file; curl -sL 'http://x.org/' | tl .. reads a page of the web (err)
  tl: ftp://x.org/: No such file or directory (err)
  [4]
