/* What `run` links with the instrumented code of a program of the repository: it calls the program's `main` for one input after another in
   one process, and takes what it prints. Where that is not what it is to be, it tells why and aborts, so that the fuzzer keeps the input.
   `harness < INPUT` handles one input of TARGET, and prints what the program prints. Files are made in the working directory. */
#include <ctype.h>
#include <fcntl.h>
#include <netinet/in.h>
#include <openssl/sha.h>
#include <regex.h>
#include <stdint.h>
#include <stdio.h>
#include <stdlib.h>
#include <string.h>
#include <sys/socket.h>
#include <unistd.h>

__AFL_FUZZ_INIT();
typedef unsigned char octet;
typedef struct { octet *at; size_t length, room; } Text;
static Text out, err, wanted;
static const char **words;
static int shows; /* what the program prints */

static void put(Text *to, const void *from, size_t length) {
    if (to->length + length + 1 > to->room) to->at = realloc(to->at, to->room = 2 * (to->length + length) + 4096);
    memcpy(to->at + to->length, from, length);
    to->at[to->length += length] = 0;
}
static void start(Text *it, const char *text) { it->length = 0, put(it, text, strlen(text)); }
static void keep(const char *path, const void *from, size_t length) {
    int file = open(path, O_WRONLY | O_CREAT | O_TRUNC, 0600);
    if (file < 0 || write(file, from, length) != (ssize_t)length || close(file)) perror(path), exit(9);
}
/* Keeps one in so many inputs for compare.py beside those that AFL++ keeps, and no two by the same. */
static void sample(const void *by, size_t size, int many, const octet *input, size_t length) {
    octet digest[32];
    char path[64];
    SHA256(by, size, digest);
    if (shows || digest[0] % many) return;
    sprintf(path, "others/id%02x%02x%02x%02x", digest[1], digest[2], digest[3], digest[4]);
    if (access(path, F_OK)) keep(path, input, length);
}
static void fault(const char *what) {
    fprintf(stderr, "FAULT: %s\nprinted:\n%stold:\n%swanted, if anything is:\n%s", what, out.at, err.at, wanted.at), abort();
}
static int is_wanted(void) { return out.length == wanted.length && !memcmp(out.at, wanted.at, out.length); }
static int fits(const Text *text, const char *form) {
    static regex_t made;
    static int is_made;
    if (!is_made) is_made = !regcomp(&made, form, REG_EXTENDED | REG_NOSUB);
    return !regexec(&made, (char *)text->at, 0, NULL, 0);
}

/* The C functions that the program calls, in the place of those of the kit and of the C library. */
size_t rattle_arg_count(void) {
    size_t count = 1;
    while (words[count]) count++;
    return count;
}
intptr_t rattle_arg(size_t i, octet *to, size_t room) {
    if (i >= rattle_arg_count() || strlen(words[i]) > room) return i >= rattle_arg_count() ? -1 : -2;
    return memcpy(to, words[i], strlen(words[i])), strlen(words[i]);
}
ssize_t program_write(int file, const void *from, size_t length) {
    return file != 1 && file != 2 ? write(file, from, length) : (put(file == 1 ? &out : &err, from, length), (ssize_t)length);
}

/* Runs the program with these words, and answers its exit status. */
extern int program_main(int, const char **);
#define DOES(...) does((const char *[]){"program", __VA_ARGS__, NULL})
static int does(const char **given) {
    words = given, start(&out, ""), start(&err, "");
    int status = program_main(rattle_arg_count(), words);
    if (shows) fprintf(stderr, "%s", err.at), fwrite(out.at, 1, out.length, stdout), fflush(stdout);
    return status;
}

/* A plain reader of messages (RFC 1035 section 4). A pointer leads to octet 12 or behind, and before the labels that it ends. */
static const octet *message;
static size_t size, place;
static int has(size_t count) { return size - place >= count; }
static uint32_t number(int count) {
    uint32_t made = 0;
    while (count--) made = made << 8 | message[place++];
    return made;
}
static int name(Text *printed) {
    char escaped[8];
    size_t end = 0, run = place, taken = 1;
    for (;;) {
        if (!has(1)) return 0;
        octet first = message[place++];
        if (!first) break;
        if (first >= 192) {
            size_t target = has(1) ? (first - 192) << 8 | message[place++] : 0;
            if (target < 12 || target >= run) return 0;
            end = end ? end : place, run = place = target;
            continue;
        }
        if (first > 63 || !has(first) || (taken += 1 + first) > 255) return 0;
        for (; first--; place++) {
            octet it = tolower(message[place]);
            sprintf(escaped, it < 33 || it > 126 ? "\\%03d" : strchr(".\\\"();@$", it) ? "\\%c" : "%c", it);
            if (printed) put(printed, escaped, strlen(escaped));
        }
        if (printed) put(printed, ".", 1);
    }
    if (printed && taken == 1) put(printed, ".", 1);
    place = end ? end : place;
    return 1;
}
static int data(int type, size_t end) {
    int numbers = type == 15 ? 2 : type == 33 ? 6 : 0, names = type == 6 ? 2 : type == 2 || type == 5 || type == 12 || numbers;
    if (place == end) return 1;
    if (type == 1 || type == 28) return end - place == (type == 1 ? 4 : 16);
    while (type == 16 && place < end) place += 1 + message[place];
    if (!names) return type != 16 || place == end;
    for (place += numbers; names; names--)
        if (place >= end || !name(NULL)) return 0;
    return place + (type == 6 ? 20 : 0) == end;
}
static int is_read(void) {
    uint32_t counts[4], ttls = 0;
    char line[64];
    place = 4;
    if (size < 12) return 0;
    for (int i = 0; i < 4; i++) counts[i] = number(2);
    put(&wanted, "-", counts[0] != 1);
    for (uint32_t i = 0; i < counts[0]; i++, place += 4)
        if (!name(counts[0] == 1 ? &wanted : NULL) || !has(4)) return 0;
    for (uint32_t i = 0; i < counts[1] + counts[2] + counts[3]; i++) {
        if (!name(NULL) || !has(10)) return 0;
        int type = number(4) >> 16;
        ttls += number(4);
        size_t length = number(2), end = place + length;
        if (!has(length) || !data(type, end)) return 0;
        place = end;
    }
    put(&wanted, line, sprintf(line, " %u %u %u %u\nstatus 0\n", counts[1], counts[2], counts[3], ttls));
    return place == size;
}
static void digits(Text *to, const octet *from, size_t length) {
    for (size_t i = 0; i < length; i++) put(to, (char[]){"0123456789abcdef"[from[i] >> 4], "0123456789abcdef"[from[i] & 15]}, 2);
}
static void messages(const octet *input, size_t length) {
    start(&wanted, "");
    digits(&wanted, input, length), put(&wanted, "\n", 1);
    keep("messages", wanted.at, wanted.length);
    keep("list", "read messages\n", 14);
    start(&wanted, "read messages\n");
    message = input, size = length;
    int reads = is_read();
    if (DOES("") || err.length) fault("the run failed");
    if (reads ? !is_wanted() : !fits(&out, "^read messages\n(short|pointer|reserved|long|cut|trailing|data)\nstatus 0\n$"))
        fault(reads ? "another reading" : "what is no message was read");
}

/* A master file is checked and printed, and what is printed reads back as the same zone. */
static void zones(const octet *input, size_t length) {
    int records, lines = -2;
    start(&wanted, "");
    keep("zone", input, length);
    keep("list", "check zone a.\n", 14);
    if (DOES("")) fault("the run failed");
    if (sscanf((char *)out.at, "check zone a.\nok %d records", &records) != 1) {
        if (fits(&out, "^check zone a[.]\ntold:\nzone(:[0-9]+: (Syntax|BadName|BadNumber|BadData|NoTtl|NoOwner|UnknownType|TooLong)|: (NoSoa|"
                       "ManySoa|NoNs|OutOfZone|Duplicate|CnameAndOther|WildcardNs|TooMany))\nstatus 1\n$")) return;
        fault("neither a zone nor a fault with its name");
    }
    keep("list", "print zone a. a.\n", 17);
    if (DOES("") || strcmp((char *)out.at + out.length - 9, "status 0\n")) fault("a zone is not printed");
    for (char *it = (char *)out.at; (it = strchr(it, '\n')); it++) lines++;
    put(&wanted, out.at, out.length);
    keep("zone", wanted.at + 17, wanted.length - 26);
    if (lines != records || DOES("") || !is_wanted()) fault("what is printed reads back as another zone");
}

/* A configuration is checked, and once more with what `--explain` adds. `zone` is the one master file that is there. */
static void configuration(const octet *input, size_t length) {
    static Text told;
    keep("config", input, length);
    int status = DOES("check", "config", "--config");
    start(&wanted, ""), put(&wanted, out.at, out.length);
    if (status ? status != 1 || out.length || !fits(&err, "^[ -~]*: [A-Z][A-Za-z]+\n$") : !out.length || err.length)
        fault("neither taken nor refused");
    start(&told, ""), put(&told, err.at, err.length);
    if (DOES("check", "config", "--config", "--explain") != status || !is_wanted()) fault("another verdict with reasons");
    if (strncmp((char *)err.at, (char *)told.at, told.length)) fault("another fault with reasons");
    if (!strcmp((char *)err.at, "config: BadConfig\n")) fault("no reason");
    if (!status) sample(input, length, 1, input, length);
}

/* Two peers on a network in memory. The input is parts: what becomes of one, in bits; how many octets follow, in two octets; and these, which
   come on connection 0 or 1 (bit 0), after their length (bit 1), so many moving at once (bits 2 and 3). Then turns are made up to an idle one
   (bit 4, and always before the other connection goes on) or so many (bits 5 to 7). What goes out is what `replay` prints for the same
   messages. Then both peers vanish, and the query of a third one has its reply. The device that served.rt makes has room for some hundred
   writes, so that few updates come; where it is full all the same, a further one is answered SERVFAIL, and nothing is compared. */
#define FURTHER "002c00012800000100000001000007" "6578616d706c650000060001027a7ac00c000100010000003c000401020304"
#define QUERY "001912340000000100000000000007" "6578616d706c650000060001"
static int has_message(const Text *came, size_t at, size_t *count) {
    return came->length - at > 1 && came->length - at - 2 >= (*count = came->at[at] << 8 | came->at[at + 1]);
}
static void settle(Text *play, size_t *waiting) {
    char line[64];
    put(play, line, sprintf(line, "turn %zu; settle\n", *waiting / 3)), *waiting = 0;
}
static void stream(const octet *input, size_t length) {
    static Text script, play, came[2], replies[2];
    char line[160];
    size_t done[2] = {0, 0}, waiting = 0, updates = 0, count, head;
    const octet *at = input, *end = input + length;
    if (length > 65536) return;
    start(&script, "connect 127.0.0.1\nconnect 127.0.0.1\n"), start(&play, "connect 3; turn 3\n");
    for (int own = 0; own < 2; own++) start(came + own, ""), start(replies + own, "");
    for (int last = 0; end - at > 3;) {
        int bits = *at, own = bits & 1;
        Text *it = came + own;
        size_t before = it->length;
        count = at[1] << 8 | at[2], at += 3, count = count > end - at ? end - at : count;
        if (own != last) settle(&play, &waiting);
        last = own, waiting += count;
        if (bits & 2) put(it, (octet[]){count >> 8, count}, 2);
        put(it, at, count), at += count;
        put(&play, line, sprintf(line, "most %d %d; stream %d ", own, (int[]){100000, 3000, 700, 100}[bits >> 2 & 3], own));
        digits(&play, it->at + before, it->length - before), put(&play, line, sprintf(line, "; turn %d\n", bits >> 5));
        if (bits & 16) settle(&play, &waiting);
        for (; has_message(it, done[own], &count); done[own] += 2 + count) {
            if (!count) continue;
            if (count > 2 && (it->at[done[own] + 4] & 0x78) == 0x28 && ++updates > 12) return;
            put(&script, line, sprintf(line, "tcp %d ", own)), digits(&script, it->at + done[own] + 2, count);
            put(&script, line, sprintf(line, "\nflush\npump %d\npump %d\npump %d\n", own, own, own));
        }
    }
    settle(&play, &waiting), head = play.length;
    keep("script", script.at, script.length), keep("list", "replay . config script\n", 23);
    if (DOES("") || memcmp(out.at, "replay . config script\nconn 0\nconn 1\n", 37)) fault("no replay");
    for (char *it = (char *)out.at + 37, *next; strcmp(it, "status 0\n"); it = next + 1) {
        if (strncmp(it, "tcp ", 4) || !(next = strchr(it, '\n'))) fault("another line");
        Text *own = replies + it[4] - '0';
        put(own, line, sprintf(line, "%04x", (int)(next - it - 6) / 2)), put(own, it + 6, next - it - 6);
    }
    sample(out.at, out.length, 64, input, length);
    for (int own = 0; own < 2; own++) {
        put(&play, line, sprintf(line, "sent %d ", own)), put(&play, replies[own].at, replies[own].length);
        put(&play, line, sprintf(line, "\nclose %d\n", own));
    }
    put(&play, line, sprintf(line, "settle\nnotes 3 2\nstream 2 %s\nsettle\nmessages 2 1 1; records 2 1\n", QUERY));
    keep("play", play.at, play.length), keep("list", "turns zone play 0-0\n", 20);
    start(&wanted, "turns zone play 0-0\nplays 0 to 0 hold\nstatus 0\n");
    if (!DOES("") && is_wanted()) return;
    play.length = head, put(&play, line, sprintf(line, "stream 2 %s\n", FURTHER));
    put(&play, line, sprintf(line, "settle\nsent 2 000c0001a8020000000000000000\n"));
    keep("play", play.at, play.length);
    if (DOES("") || !is_wanted()) fault("other replies, or none to the query that follows");
}

/* What `fetch` connects to, in the place of sockets: the answer is there, and its end, and so much of it is read at once, at most. */
static int ends[2];
static size_t piece;
int socket(int family, int type, int protocol) { return ends[0]; }
int connect(int file, const struct sockaddr *to, socklen_t length) { return 0; }
int getpeername(int file, struct sockaddr *to, socklen_t *length) {
    struct sockaddr_in it = {AF_INET, htons(53), {htonl(INADDR_LOOPBACK)}};
    return memcpy(to, &it, *length = sizeof it), 0;
}
ssize_t recv(int file, void *to, size_t room, int flags) { return read(file, to, room < piece ? room : piece); }
static int fetches(int since, const octet *answer, size_t length, size_t count) {
    octet request[1024];
    piece = count;
    if (socketpair(AF_UNIX, SOCK_STREAM | SOCK_NONBLOCK | SOCK_CLOEXEC, 0, ends) || write(ends[1], answer, length) != (ssize_t)length)
        perror("socketpair"), exit(9);
    shutdown(ends[1], SHUT_WR);
    int status = since ? DOES("fetch", "127.0.0.1:53", "example.", "--since", "held") : DOES("fetch", "127.0.0.1:53", "example.");
    ssize_t asked = read(ends[1], request, sizeof request);
    if (close(ends[1]) || asked < 27 || asked != 2 + (request[0] << 8 | request[1])) fault("another request");
    return status;
}
/* The first octet of an input tells whether a version is held, and how much is read at once; the others are the answer. */
static void fetch(const octet *input, size_t length) {
    static Text told;
    if (!length || length > 65536) return;
    int status = fetches(*input & 1, input + 1, length - 1, 65536);
    start(&wanted, ""), put(&wanted, out.at, out.length);
    start(&told, ""), put(&told, err.at, err.length);
    int is_told = fits(&err, "^127[.]0[.]0[.]1:53: (Closed|Refused[(][0-9]+[)]|BadMessage|WrongId|BadSequence|RemovesAbsent|AddsPresent|"
                             "InvalidZone)\n$");
    if (status ? out.length || !is_told : err.length) fault("neither a zone nor a fault with its name");
    if (fetches(*input & 1, input + 1, length - 1, 1 + *input / 2) != status || !is_wanted() || strcmp((char *)err.at, (char *)told.at))
        fault("another verdict in pieces");
    if (status) return;
    sample(out.at, out.length, 8, input, length);
    keep("taken", wanted.at, wanted.length);
    if (DOES("check", "taken", "example.")) fault("what was taken in is no zone");
}

/* Puts the digest of a sector at its end: of SHA-256 over its number and its first 504 octets. */
static void seal(octet *sector, octet number) {
    octet all[512] = {[7] = number}, digest[32];
    memcpy(all + 8, sector, 504);
    memcpy(sector + 504, SHA256(all, 512, digest), 8);
}
/* A device of 21 sectors. The input is parts: a sector's number, with 128 added where it is not to be sealed; how many octets follow, in
   two octets; and the octets from the sector's start. With a number above 20 the count is the length of the file, and no octets follow. */
static void devices(const octet *input, size_t length) {
    octet device[21 * 512] = {0}, after[21 * 512];
    size_t file = sizeof device;
    while (length > 2) {
        size_t part = *input & 127, sealed = *input < 128, count = input[1] << 8 | input[2];
        input += 3, length -= 3;
        if (part > 20) file = count < file ? count : file, count = 0;
        count = count > length ? length : count;
        if (part <= 20) memcpy(device + 512 * part, input, count < 512 ? count : 512);
        if (part <= 20 && sealed && device[512 * part + 3] != '1') seal(device + 512 * part, part);
        input += count, length -= count;
    }
    start(&wanted, "");
    keep("a.dev", device, file);
    if (shows) keep("device", device, file);
    int status = DOES("dump", "config", "a.");
    if (status == 1 && !strcmp((char *)err.at, "a.dev: OldFormat\n"))
        status = DOES("migrate", "config") || DOES("dump", "config", "a.");
    else if (!status) {
        /* What docs/FORMAT.md says of opening: zeros in the other bank where it may hold something of format 1, and a raised count. */
        int other = device[48] ? 0 : device[23] ? 1 : 11;
        memset(device + 512 * other, 0, other ? 10 * 512 : 0);
        for (int i = 11; i > 3 && !++device[i]; i--) {}
        device[48] = 1, seal(device, 0);
        int it = open("a.dev", O_RDONLY);
        if (read(it, after, sizeof after) != sizeof after || close(it) || memcmp(device, after, sizeof device))
            fault("another device after it was opened");
    }
    if (status == 1 && !out.length && fits(&err, "^a[.]dev: (Blank|OldFormat|Geometry|ZoneTooLarge|NoRoom|Damaged[(][0-9]+[)])\n$")) return;
    if (status || err.length) fault("neither a zone nor a fault with its name");
    put(&wanted, out.at, out.length);
    keep("zone", wanted.at, wanted.length);
    if (DOES("dump", "config", "a.") || !is_wanted() || DOES("check", "zone", "a.")) fault("another zone the second time, or none");
}
int main(void) {
    shows = !getenv("__AFL_SHM_ID");
    __AFL_INIT();
    const octet *input = __AFL_FUZZ_TESTCASE_BUF;
    while (__AFL_LOOP(2000)) TARGET(input, __AFL_FUZZ_TESTCASE_LEN);
}
