/*
 * jig [--fault NAME] [--erase] [--image FILE] [PLAN]: hands a box out. It erases the box and loads PLAN into it (a plan file; else the first
 * sample of document 01), and lights a lamp for each only by what it reads back: that the erase or the load was asked for, and taken, says
 * nothing of the box. One line for each thing that it does; the lamps are BLANK and HOLDS.
 *
 * The box on this jig is a piece of memory that holds another team's plan at the start. --fault puts a fault into it:
 *     erase       the erase is taken and not done
 *     read        the bytes after the erase come cut off
 *     program     one byte of the plan is not programmed
 *     watchdog    the watchdog's numbers are not programmed
 *     reread      the bytes after programming come cut off
 * --erase stops after the first lamp. --image writes the bytes that were read back last to FILE, for spwd-counter.
 *
 * Status: 0 if the lamps are lit; 1 if one is not; 3 wrong arguments, or a file that cannot be read or written.
 */
#include "spwd.h"

#include <stdio.h>
#include <string.h>

/* plans/smallest.plan, the other team's: nodes 1 and 2, and 1 may start to 2 in slot 0. */
static const uint8_t theirs[] = {
    0x01, 0, 2, 1, 0, 0x01, 0, 2, 2, 0, 0x02, 0, 3, 0, 1, 2, 0x03, 0, 3, 1, 2, 0,
    0x04, 0, 4, 1, 0, 1, 2, 0x05, 0, 8, 0, 0, 0, 90, 0, 0, 0, 110,
};

/* plans/sample-first.plan: nodes 1 to 4, routers 10 and 11; 1 may start to 3 and 2 to 4 in slot 0; intervals 90 to 110. */
static const uint8_t first_sample[] = {
    0x01, 0, 2, 1, 0, 0x01, 0, 2, 2, 0, 0x01, 0, 2, 3, 0, 0x01, 0, 2, 4, 0, 0x01, 0, 2, 10, 1, 0x01, 0, 2, 11, 1,
    0x02, 0, 3, 0, 1, 10, 0x02, 0, 3, 1, 2, 11, 0x02, 0, 3, 2, 10, 3, 0x02, 0, 3, 3, 11, 4, 0x02, 0, 3, 4, 10, 11,
    0x03, 0, 4, 1, 3, 0, 2, 0x03, 0, 5, 1, 4, 0, 4, 3, 0x03, 0, 4, 2, 4, 1, 3, 0x03, 0, 5, 2, 3, 1, 4, 2,
    0x04, 0, 4, 1, 0, 1, 3, 0x04, 0, 4, 2, 0, 1, 4,
    0x05, 0, 8, 0, 0, 0, 90, 0, 0, 0, 110,
};

/* ---- the box on the jig, and the faults that can be put into it */

typedef enum fault { NO_FAULT, FAULT_ERASE, FAULT_READ, FAULT_PROGRAM, FAULT_WATCHDOG, FAULT_REREAD } fault;

static const char *const fault_names[] = {"none", "erase", "read", "program", "watchdog", "reread"};

static uint8_t memory[sizeof(spwd_box)];
static fault put_in = NO_FAULT;
static bool programmed = false;

/* Asks for the erase, and says whether the box took that. */
static bool jig_erase(void)
{
    if (put_in != FAULT_ERASE) {
        memset(memory, 0, sizeof memory);
    }
    return true;
}

/* Asks for the bytes of this box to be programmed, and says whether the one on the jig took that. */
static bool jig_write(const spwd_box *box)
{
    size_t slot = 0;
    memcpy(memory, box, sizeof memory);
    if (put_in == FAULT_PROGRAM) {
        while (box->plan.spans[slot] == 0) { /* an accepted plan has an entry */
            slot++;
        }
        memory[offsetof(spwd_plan, spans) + slot] = 0;
    }
    if (put_in == FAULT_WATCHDOG) {
        memset(memory + offsetof(spwd_box, watchdog), 0, sizeof box->watchdog);
    }
    programmed = true;
    return true;
}

/* Reads bytes back from the box, and answers how many came. */
static size_t jig_read_back(void *bytes, size_t size)
{
    if (put_in == (programmed ? FAULT_REREAD : FAULT_READ)) {
        size -= 5;
    }
    memcpy(bytes, memory, size);
    return size;
}

/* ---- what the jig has, and what it says */

/* The bytes of a box without the padding at its end. */
enum { NUMBERS_END = offsetof(spwd_box, last) + 1 };

static uint8_t file[SPWD_FILE_MOST + 1]; /* the plan file; one byte more than a plan has decides that it has too many */
static size_t file_size;
static spwd_box back; /* the bytes that were read back last, and how many came */
static size_t back_size;

/* The verdict's line, without its newline. */
static void say_verdict(const char *what, spwd_verdict verdict)
{
    uint8_t line[SPWD_LINE_ROOM];
    size_t size = spwd_print(&verdict, line);
    printf("%s: ", what);
    fwrite(line, 1, size - 1, stdout);
}

/* Where what was read back first differs from what should be there. Memory that came from no clear, no load and no event is asked nothing else:
 * spwd_is_blank and spwd_holds alone may be asked of any memory. What is in it, spwd-counter says of the image. */
static void say_first_difference(const spwd_box *right)
{
    uint8_t found[sizeof(spwd_box)], wanted[sizeof(spwd_box)];
    size_t place = 0;
    memcpy(found, &back, sizeof found);
    memcpy(wanted, right, sizeof wanted);
    while (place < NUMBERS_END && found[place] == wanted[place]) {
        place++;
    }
    if (place < NUMBERS_END) {
        printf("    byte %lu is %u and should be %u\n", (unsigned long)place, found[place], wanted[place]);
    }
}

static bool lamp(const char *name, bool lit, const char *why)
{
    printf("lamp %s: %s%s\n", name, lit ? "lit" : "not lit: ", lit ? "" : why);
    return lit;
}

/* Reads the whole box back. What does not come is not blank either. */
static bool read_back(void)
{
    memset(&back, 0xA5, sizeof back);
    back_size = jig_read_back(&back, sizeof back);
    printf("read back: %lu of %lu bytes\n", (unsigned long)back_size, (unsigned long)sizeof back);
    return back_size == sizeof back;
}

/* ---- the two lamps */

/* Erases the box. The lamp is lit only if the box, as it was read back, is blank. */
static bool is_blank(void)
{
    printf("erase: asked: %s\n", jig_erase() ? "taken" : "not taken");
    if (!read_back()) {
        return lamp("BLANK", false, "the bytes came cut off");
    }
    if (!spwd_is_blank(&back)) {
        static spwd_box blank;
        spwd_clear(&blank);
        lamp("BLANK", false, "the box is not blank");
        say_first_difference(&blank);
        return false;
    }
    return lamp("BLANK", true, "");
}

/* Loads the plan and programs the box. The lamp is lit only if the box, as it was read back, holds the plan of the file and is in all else
 * as the load left it: nothing waits or is live, and the watchdog has the plan's intervals. */
static bool holds(void)
{
    static spwd_box box;
    static spwd_plan other;
    spwd_verdict verdict = spwd_load(&box, file, file_size);
    say_verdict("load", verdict);
    if (verdict.number != SPWD_ACCEPTED) {
        printf(": %s\n    to do: %s\n", spwd_words(verdict.number), spwd_to_do(verdict.number));
        return lamp("HOLDS", false, "the plan is refused");
    }
    printf("\n");
    printf("program: asked: %s\n", jig_write(&box) ? "taken" : "not taken");
    if (!read_back()) {
        return lamp("HOLDS", false, "the bytes came cut off");
    }
    if (!spwd_holds(&back, file, file_size, &other)) {
        lamp("HOLDS", false, "the box does not hold this plan");
        say_first_difference(&box);
        return false;
    }
    if (memcmp(&back, &box, NUMBERS_END) != 0) {
        lamp("HOLDS", false, "the box is not as the load left it");
        say_first_difference(&box);
        return false;
    }
    return lamp("HOLDS", true, "");
}

/* ---- files and arguments */

static bool read_file(const char *name)
{
    FILE *stream = fopen(name, "rb");
    bool read = false;
    if (stream != NULL) {
        file_size = fread(file, 1, sizeof file, stream);
        read = ferror(stream) == 0;
        fclose(stream);
    }
    return read;
}

static bool write_image(const char *name)
{
    FILE *stream = fopen(name, "wb");
    bool written = stream != NULL && fwrite(&back, 1, back_size, stream) == back_size;
    return stream != NULL && fclose(stream) == 0 && written;
}

/* What is asked for; `wrong` is an argument that is none. */
typedef struct wanted {
    const char *plan, *image, *wrong;
    bool only_erase;
} wanted;

static bool put_fault(const char *name)
{
    int place;
    for (place = FAULT_ERASE; place <= FAULT_REREAD; place++) {
        if (strcmp(name, fault_names[place]) == 0) {
            put_in = (fault)place;
            return true;
        }
    }
    return false;
}

static wanted read_arguments(int count, char **arguments)
{
    wanted asked = {NULL, NULL, NULL, false};
    int place;
    for (place = 1; place < count && asked.wrong == NULL; place++) {
        const char *word = arguments[place], *after = place + 1 < count ? arguments[place + 1] : NULL;
        if (strcmp(word, "--erase") == 0) {
            asked.only_erase = true;
        } else if (strcmp(word, "--image") == 0 && after != NULL) {
            asked.image = after;
            place++;
        } else if (strcmp(word, "--fault") == 0 && after != NULL && put_fault(after)) {
            place++;
        } else if (word[0] != '-' && asked.plan == NULL) {
            asked.plan = word;
        } else {
            asked.wrong = word;
        }
    }
    return asked;
}

static int trouble(const char *name, const char *what)
{
    fflush(stdout); /* what was done comes before what could not be */
    fprintf(stderr, "jig: %s: %s\n", name, what);
    return 3;
}

/* The box comes back from another team: its plan is in it, and a request waits. */
static bool come_back(void)
{
    static spwd_box box;
    bool loaded = spwd_load(&box, theirs, sizeof theirs).number == SPWD_ACCEPTED;
    loaded = loaded && spwd_request(&box, 1, 2, SPWD_READ, 100).number == SPWD_TAKEN;
    memcpy(memory, &box, sizeof memory);
    return loaded;
}

int main(int count, char **arguments)
{
    wanted asked = read_arguments(count, arguments);
    bool lit;
    if (asked.wrong != NULL) {
        return trouble(asked.wrong, "not understood: jig [--fault NAME] [--erase] [--image FILE] [PLAN]");
    }
    if (!spwd_version_fits() || !come_back()) {
        return trouble("libspwd_c.a", "not of the version of spwd.h");
    }
    file_size = sizeof first_sample;
    memcpy(file, first_sample, file_size);
    if (asked.plan != NULL && !read_file(asked.plan)) {
        return trouble(asked.plan, "cannot be read");
    }
    lit = is_blank() && (asked.only_erase || holds());
    if (asked.image != NULL && !write_image(asked.image)) {
        return trouble(asked.image, "cannot be written");
    }
    if (fflush(stdout) != 0 || ferror(stdout) != 0) {
        return trouble("standard output", "cannot be written");
    }
    return lit ? 0 : 1;
}
