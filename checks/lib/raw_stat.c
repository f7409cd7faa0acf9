/* A client of SMB 2.1 that does as little as can be, for `smbfs run` to be measured beside: it mounts a share without a user by the requests
   that smbfs sends, asks so often for all that is known of one file, and leaves. The frames that ask are made once; then their message ids
   alone are counted up. A reply is taken by two receives, of its length and of the rest. Of the first one the statuses are looked at, of each
   later one nothing but whether it is as long.

   raw_stat HOST PORT SHARE NAME NUMBER FLIGHT

   HOST is an IPv4 address, NAME the file's name in ASCII. FLIGHT is how many frames of a CREATE, a QUERY_INFO and a CLOSE are in flight,
   1 to 16, or the word `apart`: then each of the three is a frame of its own, which is sent when the one before it is answered.
   The seconds that the NUMBER of them took are printed, without those of the mount and of the end. */
#include <arpa/inet.h>
#include <netinet/in.h>
#include <netinet/tcp.h>
#include <stdint.h>
#include <stdio.h>
#include <stdlib.h>
#include <string.h>
#include <sys/socket.h>
#include <time.h>

enum { HEADER = 64, LONGEST = 4096, PARTS = 3, CREDITS = 32, RELATED = 4, LARGE_MTU = 4, MOST_IN_FLIGHT = 16 };
enum { NEGOTIATE = 0, SETUP = 1, LOGOFF = 2, TREE = 3, LEAVE = 4, CREATE = 5, CLOSE = 6, QUERY = 16 };
static const uint32_t MORE = 0xC0000016;

struct client {
    int socket;
    uint64_t next;    /* the next message id */
    uint64_t granted; /* how many ids the replies of the mount allow, the first one among them */
    uint64_t session;
    uint32_t tree;
    uint16_t charge;
    unsigned char reply[65536];
};

/* A frame as it is sent: the length field, and the messages, of which each has a place there. */
struct frame {
    size_t length;
    size_t parts;
    size_t places[PARTS];
    unsigned char bytes[LONGEST];
};

static void end(const char *why)
{
    fprintf(stderr, "raw_stat: %s\n", why);
    exit(1);
}

static uint64_t number_at(const unsigned char *at, int width)
{
    uint64_t number = 0;
    while (width-- > 0)
        number = number << 8 | at[width];
    return number;
}

static void write_at(unsigned char *at, int width, uint64_t number)
{
    for (; width > 0; width--, number >>= 8)
        *at++ = number & 0xFF;
}

/* Adds a number to a frame, the lowest byte first. */
static void add(struct frame *f, int width, uint64_t number)
{
    if (f->length + width > LONGEST)
        end("a frame is too long");
    write_at(f->bytes + f->length, width, number);
    f->length += width;
}

static void add_zeros(struct frame *f, size_t number)
{
    while (number-- > 0)
        add(f, 1, 0);
}

/* Adds a text in UTF-16. */
static void add_text(struct frame *f, const char *text)
{
    for (; *text; text++)
        add(f, 2, (unsigned char)*text);
}

/* Begins a frame anew. */
static void begin(struct frame *f)
{
    f->length = 4;
    f->parts = 0;
}

/* Adds a header (MS-SMB2 2.2.1.2). Where a message stands before it, that one is made a multiple of 8 long and tells of this one. */
static void add_header(struct frame *f, struct client *c, int command, uint32_t flags, uint32_t tree)
{
    if (f->parts > 0) {
        size_t before = f->places[f->parts - 1];
        add_zeros(f, -(f->length - before) & 7);
        write_at(f->bytes + before + 20, 4, f->length - before);
    }
    f->places[f->parts++] = f->length;
    add(f, 4, 0x424D53FE);
    add(f, 2, HEADER);
    add(f, 2, c->charge);
    add(f, 4, 0);
    add(f, 2, command);
    add(f, 2, CREDITS);
    add(f, 4, flags);
    add(f, 4, 0);
    add(f, 8, c->next++);
    add(f, 4, 0);
    add(f, 4, tree);
    add(f, 8, c->session);
    add_zeros(f, 16);
}

static void send_frame(struct client *c, struct frame *f)
{
    size_t length = f->length - 4, sent = 0;
    f->bytes[0] = 0;
    f->bytes[1] = length >> 16;
    f->bytes[2] = length >> 8;
    f->bytes[3] = length;
    while (sent < f->length) {
        ssize_t now = send(c->socket, f->bytes + sent, f->length - sent, MSG_NOSIGNAL);
        if (now <= 0)
            end("a frame cannot be sent");
        sent += now;
    }
}

static void receive(struct client *c, unsigned char *to, size_t length)
{
    while (length > 0) {
        ssize_t now = recv(c->socket, to, length, 0);
        if (now <= 0)
            end("the connection ended");
        to += now;
        length -= now;
    }
}

/* Takes a frame, and tells its length. */
static size_t take(struct client *c)
{
    unsigned char field[4];
    receive(c, field, 4);
    size_t length = (size_t)field[1] << 16 | (size_t)field[2] << 8 | field[3];
    if (field[0] != 0 || length < HEADER || length > sizeof c->reply)
        end("a frame of another length");
    receive(c, c->reply, length);
    return length;
}

/* Sends a request of the mount or of the end, and takes its reply. */
static void ask(struct client *c, struct frame *f)
{
    send_frame(c, f);
    take(c);
    uint32_t status = number_at(c->reply + 8, 4);
    if (status != 0 && !(status == MORE && number_at(c->reply + 12, 2) == SETUP))
        end("a request is refused");
    c->granted += number_at(c->reply + 14, 2);
}

/* NEGOTIATE of the one dialect 0x0210 (MS-SMB2 2.2.3). */
static void negotiate(struct client *c, struct frame *f)
{
    begin(f);
    add_header(f, c, NEGOTIATE, 0, 0);
    add(f, 2, 36);
    add(f, 2, 1);
    add(f, 2, 1);
    add_zeros(f, 6);
    add_text(f, "raw_stat");
    add_zeros(f, 8);
    add(f, 2, 0x0210);
    ask(c, f);
    c->charge = number_at(c->reply + 88, 4) & LARGE_MTU ? 1 : 0;
}

/* A SESSION_SETUP (MS-SMB2 2.2.5) with a token of so many bytes, of which all but these first ones are zero. */
static void set_up(struct client *c, struct frame *f, const unsigned char *token, size_t given, size_t length)
{
    begin(f);
    add_header(f, c, SETUP, 0, 0);
    add(f, 2, 25);
    add(f, 2, 0x0100);
    add_zeros(f, 8);
    add(f, 2, 88);
    add(f, 2, length);
    add_zeros(f, 8);
    for (size_t i = 0; i < given; i++)
        add(f, 1, token[i]);
    add_zeros(f, length - given);
    ask(c, f);
}

/* Both messages of NTLMSSP (MS-NLMP 2.2.1.1 and 2.2.1.3), of no user. */
static void log_on(struct client *c, struct frame *f)
{
    static const unsigned char first[] = "NTLMSSP\0\1\0\0\0\5\2";
    static const unsigned char last[] = "NTLMSSP\0\3\0\0\0\1\0\1\0H\0\0\0\0\0\0\0H\0\0\0\0\0\0\0H\0\0\0\0\0\0\0H\0\0\0\0\0\0\0H\0\0\0"
                                        "\0\0\0\0H\0\0\0\5\n";
    set_up(c, f, first, sizeof first - 1, 40);
    c->session = number_at(c->reply + 40, 8);
    if (number_at(c->reply + 8, 4) == MORE)
        set_up(c, f, last, sizeof last - 1, 73);
}

/* TREE_CONNECT to \\HOST\SHARE (MS-SMB2 2.2.9). */
static void connect_tree(struct client *c, struct frame *f, const char *host, const char *share)
{
    begin(f);
    add_header(f, c, TREE, 0, 0);
    add(f, 2, 9);
    add(f, 2, 0);
    add(f, 2, HEADER + 8);
    add(f, 2, 2 * (3 + strlen(host) + strlen(share)));
    add_text(f, "\\\\");
    add_text(f, host);
    add_text(f, "\\");
    add_text(f, share);
    ask(c, f);
    c->tree = number_at(c->reply + 36, 4);
}

/* TREE_DISCONNECT or LOGOFF. */
static void leave(struct client *c, struct frame *f, int command, uint32_t tree)
{
    begin(f);
    add_header(f, c, command, 0, tree);
    add(f, 4, 4);
    ask(c, f);
}

/* Adds a CREATE of the name (MS-SMB2 2.2.13): to be opened, for its attributes alone. */
static void add_create(struct frame *f, struct client *c, const char *name)
{
    add_header(f, c, CREATE, 0, c->tree);
    add(f, 4, 57);
    add(f, 4, 2);
    add_zeros(f, 16);
    add(f, 4, 0x100080);
    add(f, 4, 0x80);
    add(f, 4, 7);
    add(f, 4, 1);
    add(f, 4, 0);
    add(f, 2, HEADER + 56);
    add(f, 2, 2 * strlen(name));
    add_zeros(f, 8);
    add_text(f, name);
}

/* Adds the file id that means the file of the CREATE before. */
static void add_file(struct frame *f)
{
    add(f, 8, UINT64_MAX);
    add(f, 8, UINT64_MAX);
}

/* Adds a QUERY_INFO of all that is known (MS-SMB2 2.2.37). */
static void add_query(struct frame *f, struct client *c, uint32_t flags)
{
    add_header(f, c, QUERY, flags, c->tree);
    add(f, 2, 41);
    add(f, 2, 18 << 8 | 1);
    add(f, 4, 1024);
    add_zeros(f, 16);
    add_file(f);
    add(f, 1, 0);
}

/* Adds a CLOSE (MS-SMB2 2.2.15). */
static void add_close(struct frame *f, struct client *c, uint32_t flags)
{
    add_header(f, c, CLOSE, flags, c->tree);
    add(f, 8, 24);
    add_file(f);
}

/* Sends a frame under the next message ids. */
static void send_next(struct client *c, struct frame *f)
{
    for (size_t i = 0; i < f->parts; i++)
        write_at(f->bytes + f->places[i] + 24, 8, c->next++);
    send_frame(c, f);
}

/* Takes a reply, which has to be as long as those before it. Each message of the first one tells of success. */
static void take_alike(struct client *c, size_t *length)
{
    size_t now = take(c), at = 0, next = 1;
    if (*length == 0) {
        for (; next != 0; at += next) {
            if (at + HEADER > now || number_at(c->reply + at + 8, 4) != 0)
                end("a stat is refused");
            next = number_at(c->reply + at + 20, 4);
        }
        *length = now;
    }
    if (now != *length)
        end("a reply of another length");
}

/* So many frames, with so many in flight. */
static void chained(struct client *c, const char *name, long number, long flight)
{
    static struct frame f;
    size_t length = 0;
    uint64_t next = c->next;
    begin(&f);
    add_create(&f, c, name);
    add_query(&f, c, RELATED);
    add_close(&f, c, RELATED);
    c->next = next;
    if (next + PARTS * flight > c->granted)
        end("the server allows too few requests");
    for (long sent = 0, got = 0; got < number; got++) {
        for (; sent < number && sent - got < flight; sent++)
            send_next(c, &f);
        take_alike(c, &length);
    }
}

/* The same with three frames for each, one after another. The file id is that of the reply. */
static void apart(struct client *c, const char *name, long number)
{
    static struct frame create, query, close;
    size_t lengths[PARTS] = {0, 0, 0};
    uint64_t next = c->next;
    begin(&create);
    add_create(&create, c, name);
    begin(&query);
    add_query(&query, c, 0);
    begin(&close);
    add_close(&close, c, 0);
    c->next = next;
    for (long got = 0; got < number; got++) {
        send_next(c, &create);
        take_alike(c, &lengths[0]);
        memcpy(query.bytes + 4 + 88, c->reply + 128, 16);
        memcpy(close.bytes + 4 + 72, c->reply + 128, 16);
        send_next(c, &query);
        take_alike(c, &lengths[1]);
        send_next(c, &close);
        take_alike(c, &lengths[2]);
    }
}

static double now(void)
{
    struct timespec t;
    clock_gettime(CLOCK_MONOTONIC, &t);
    return t.tv_sec + t.tv_nsec / 1e9;
}

static int connected(const char *host, int port)
{
    struct sockaddr_in at = {.sin_family = AF_INET, .sin_port = htons(port)};
    int yes = 1, to = socket(AF_INET, SOCK_STREAM, 0);
    if (to < 0 || inet_pton(AF_INET, host, &at.sin_addr) != 1 || connect(to, (struct sockaddr *)&at, sizeof at) != 0)
        end("no connection");
    setsockopt(to, IPPROTO_TCP, TCP_NODELAY, &yes, sizeof yes);
    return to;
}

int main(int count, char **words)
{
    static struct client c;
    static struct frame f;
    if (count != 7)
        end("HOST PORT SHARE NAME NUMBER FLIGHT");
    long number = atol(words[5]), flight = atol(words[6]);
    int is_apart = strcmp(words[6], "apart") == 0;
    if (number < 1 || (!is_apart && (flight < 1 || flight > MOST_IN_FLIGHT)))
        end("a number of stats, and 1 to 16 in flight");
    c.socket = connected(words[1], atoi(words[2]));
    c.granted = 1;
    negotiate(&c, &f);
    log_on(&c, &f);
    connect_tree(&c, &f, words[1], words[3]);
    double begun = now();
    if (is_apart)
        apart(&c, words[4], number);
    else
        chained(&c, words[4], number, flight);
    double took = now() - begun;
    leave(&c, &f, LEAVE, c.tree);
    leave(&c, &f, LOGOFF, 0);
    printf("%.6f\n", took);
    return 0;
}
