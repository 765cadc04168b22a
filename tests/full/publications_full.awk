# There are at most 256 publications: the 257th is full, though the pages would do for no 257th log either, and 1003 stands
# before 1006. One that joins a log makes none.
BEGIN {
    say("set arena-pages 12288")
    opens("allow"); closes()
    say("attach 0 7")
    want("attached 1")
    # Each stream has a log of its own: registrations and sessions are drawn from 1 on, one a publication.
    for (stream = 1; stream <= 256; stream++) {
        gives(0, 1, add_publication(1, 100 + stream, stream, ipc))
        publication_ready(1, 100 + stream, stream, stream, stream)
    }
    gives(0, 1, add_publication(1, 357, 257, ipc))
    error(1, 357, 1003, "full")
    gives(0, 1, add_exclusive_publication(1, 358, 1, ipc))
    error(1, 358, 1003, "full")
    gives(0, 1, add_publication(1, 359, 1, ipc))
    publication_ready(1, 359, 257, 1, 1)
}
