"""What bin/NAME says of itself."""

HELP = {
    "davserve": """\
usage: bin/davserve [PORT] [OPTION VALUE].. [--read-only] [--existing] [--wait]
       bin/davserve --make-cert NAME[,NAME..] DIR

Serves a WebDAV folder on 127.0.0.1 at PORT, else 8080 (0: any that is free), and prints its URL once it serves. With --store a file keeps it; else it is empty at first, and gone when it ends.
It runs what was proved on this machine, or else the release in this repository. A first SIGTERM or interrupt lets what has begun go on for a while, a second ends it at once.

  --store FILE                    the file that keeps what is put, through any crash; it is made where it isn't there. What it keeps stands in memory, too
  --existing                      FILE has to be there: no new one is made (bin/davstore FILE new makes one)
  --began NANOSECONDS             FILE has to be that of the store that began at this moment, as bin/davstore FILE check tells it
  --lease SECONDS                 where machines share FILE: no other one serves it within so many seconds, 1 to 60, of when it was last seen that this one may write it; clients get in only while it is served. Not with sockets that are handed over
  --sync always|second            when FILE has what is changed: before an answer tells of it, as without this; or once a second, so that a crash takes at most the last second's changes
  --compact-over BYTES            at the start FILE is written anew where it has more bytes than that, 67108864 without this,
  --compact-useless PERCENT       and where more than so many hundredths of it are of no use any more, 50 without this
  --scheme http|https             the scheme by which clients come, where a proxy stands between; https with --tls-cert, else http
  --prefix PATH                   the path that the folder stands at, as /dav
  --user-header NAME              the header in which a proxy names the user; without it all requests are one user
  --address-header NAME           the header in which a proxy tells where a client is, for --log and for the limits of guesses of --users; what stands behind the last comma of the last one counts
  --users FILE                    the users who may log in, a line NAME:HASH for each (docs/USERS.md), read again on SIGHUP; not with --user-header
  --log FILE                      a line for each request is appended to the file, which may be moved away at any moment; - is standard error
  --log-format common|combined|json
                                  the form of these lines: the common log format, the combined one with Referer and User-Agent, or JSON
  --read-only                     lets nothing be changed: all but GET, HEAD, OPTIONS and PROPFIND is answered 403
  --realm TEXT                    what a client is told it logs in to; davserve without it
  --longest-timeout SECONDS       the longest time that a lock is given; without it a lock may last for ever
  --propfind-depth finite|infinite    whether a PROPFIND of infinite depth is refused
  --max-body BYTES                the most bytes that a request's body may have; here, and for --waiting, --unfinished and --compact-over, K, M or G may stand behind the number, as 200M
  --window BYTES                  how far answers go beyond what a client has taken; 262144 without it
  --waiting BYTES                 the most bytes of answers that wait, of all clients; 268435456 without it
  --unfinished BYTES              the most bytes of requests that have not come whole, of all clients; 268435456 without it
  --seed NUMBER                   for tests: the seed of the tokens of locks
  --clock NANOSECONDS|frames      for tests: the moment at which the clock stands
  --make-cert NAME[,NAME..] DIR   makes a certificate of its own for these names or addresses, and its key, for --tls-cert and --tls-key: cert.pem and key.pem in DIR, which is made where it isn't there
  --prove                         proves and builds it here, and compares its bytes with those of the release
  --path                          prints where the program stands that is run; nothing is proved for it
  --help, --version               this text; what is run, and what it needs

Of the listener in front of it (docs/OPERATIONS.md):
  --listen ADDRESS:PORT           where to listen, several times: IPv4, [IPv6], a name, unix:PATH or unix:PATH,mode=660 (600 without it)
  --connections COUNT             the most clients at a time; 1000 without it
  --connections-per-address COUNT the most of them from one address, or one network of IPv6; a quarter of them without it
  --idle SECONDS                  how long a client may rest between requests; 120 without it
  --head SECONDS                  how long it may take to send a request; 20 without it
  --rate BYTES                    each so many bytes of a request give it a second more; 500 without it
  --stall SECONDS                 how long it may take nothing of an answer; 60 without it
  --linger SECONDS                how long a connection that is over is still read, so that its last answer is seen; 5 without it
  --grace SECONDS                 how long what has begun goes on behind a first SIGTERM; 10 without it
  --memory BYTES                  how much the server may take, 0 for no limit; half of the machine's without it
  --tls-cert FILE                 a certificate with its chain, in PEM: TLS is spoken at all addresses but unix sockets and ADDRESS:PORT,plain; several times, for several names; read again on SIGHUP
  --tls-key FILE                  its key, in PEM, without a password; one for each --tls-cert, in the same order
  --proxy-protocol ADDRESSES      each connection from there (addresses, networks as 10.0.0.0/8, or unix, with commas between) begins with a header of the PROXY protocol, version 2, which tells where its client is; not with --user-header or --address-header
  --wait                          for a standby: while FILE of --store is in use, or can't be opened or read, it is tried again each half second; clients get in only while it is served. Not with sockets that are handed over
""",
    "davstore": """\
usage: bin/davstore FILE check
       bin/davstore FILE list [FOLDER]
       bin/davstore FILE log [--bodies]
       bin/davstore FILE compact
       bin/davstore FILE new
       bin/davstore FILE import DIR
       bin/davstore FILE export DIR
       bin/davstore FILE salvage OUT

Says of a file of --store whether it is whole, what stands in it, or what changed it (crates/davstore/README.md). It changes nothing there, and may be run beside the server.
With compact it writes the file anew, without what was deleted or written over; the server must not run meanwhile.
With new it makes an empty store, where nothing stands at FILE.
With import it puts what stands in a folder into the file, for which the server must not run either; with export what stands in the file into a new folder.
With salvage it puts what stood in a file before it is broken into a new file.
  --prove                         proves and builds it here, and compares its bytes with those of the release
  --path                          prints where the program stands that is run; nothing is proved for it
  --help, --version               this text; what is run, and what it needs
""",
    "davreplay": """\
usage: bin/davreplay SEED

Plays requests from standard input, one a line, and writes one answer a line (docs/FORMATS.md). SEED is the seed of the tokens of locks.
  --prove                         proves and builds it here, and compares its bytes with those of the release
  --path                          prints where the program stands that is run; nothing is proved for it
  --help, --version               this text; what is run, and what it needs
""",
    "davread": """\
usage: bin/davread

Says what headers, paths, methods and XML bodies mean, one a line of standard input (docs/FORMATS.md).
  --prove                         proves and builds it here, and compares its bytes with those of the release
  --path                          prints where the program stands that is run; nothing is proved for it
  --help, --version               this text; what is run, and what it needs
""",
    "journalplay": """\
usage: bin/journalplay [--list] [--key NUMBER] [--began NUMBER] PATH
       bin/journalplay --read

Plays with a journal in a file, for tests and measurements (crates/journalplay/README.md).
  --prove                         proves and builds it here, and compares its bytes with those of the release
  --path                          prints where the program stands that is run; nothing is proved for it
  --help, --version               this text; what is run, and what it needs
""",
    "listen": """\
usage: bin/listen [OPTION VALUE].. [PORT] PROGRAM [WORD..]

The listener alone: it moves the bytes of clients to the program and back, in frames. bin/davserve runs it with davserve behind it, and its help has the options.
  --prove                         builds it here by rustc, and compares its bytes with those of the release; nothing of it is proved
  --path                          prints where the program stands that is run; nothing is built for it
  --help, --version               this text; what is run, and what it needs
""",
}
