"""Makes what a reader typed safe to show in a page: comment_sanitizer.py <comment.txt >comment.html"""
import sys

from tlhtml import sanitize

if __name__ == "__main__":
    sys.stdout.write(sanitize(sys.stdin.read()))
