/* main.c - options, help, and the table of commands. */
#include <fcntl.h>
#include <signal.h>
#include <string.h>
#include <unistd.h>

#include "look.h"

typedef struct {
    const char *name;
    int (*run)(int argc, char **argv, const options *);
    const char *arguments, *help;
} command;

static const command commands[] = {
    { "format", command_format, "VOLUME BLOCKS [--root D] [--name TEXT] [--uuid UUID] [--journal BYTES]",
      "Makes a new volume of BLOCKS blocks of 512 bytes (3 to 65536), with its journal in\n"
      "the same file.  The root gets D blocks, room for 4 * D - 2 names; it does not grow.\n"
      "Without --root it gets a sixteenth of BLOCKS, at least 1 and at most 64.  Without\n"
      "--journal the journal has room for two changes of the whole volume and 1 MiB." },
    { "import", command_import, "IMAGE [JOURNAL] VOLUME",
      "Makes a volume of a bare image, and of its journal if there is one.  Both stay." },
    { "export", command_export, "VOLUME IMAGE [JOURNAL]",
      "Writes the image of a volume, and its journal, to new files." },
    { "ls", command_ls, "[-l] [-R] VOLUME [PATH]",
      "Lists a folder; -l with all fields, -R with all that is below it." },
    { "info", command_info, "VOLUME [PATH]", "Says what the volume is and what it holds, or what there is at PATH." },
    { "check", command_check, "VOLUME", "Checks the volume, and says what is wrong and where." },
    { "cat", command_cat, "VOLUME PATH", "Writes a file of the volume to standard output." },
    { "get", command_get, "[-r] VOLUME PATH FILE",
      "Copies a file of the volume to FILE, which must not exist; - is standard output.  -r\n"
      "copies a folder with all that is in it to a new folder, all of it or nothing." },
    { "put", command_put, "[-r] VOLUME PATH FILE|-",
      "Makes PATH the content of FILE (- is standard input), in one step.  Of a file that\n"
      "is there only the bytes and the time of the last change become others; if it has\n"
      "these bytes already, nothing is changed.  -r brings a folder with all that is in it\n"
      "to the folder PATH, all of it or nothing; what else is there stays." },
    { "mv", command_mv, "VOLUME PATH NEW",
      "Moves a file to the path NEW, or with its own name into the folder NEW.  All of\n"
      "the file stays: bytes, attributes, times and the other fields." },
    { "rm", command_rm, "VOLUME PATH...", "Deletes files, in one step." },
    { "mkdir", command_mkdir, "[-p] VOLUME PATH [BLOCKS]",
      "Makes a folder of BLOCKS blocks (1 to 64; 4 if it is not said), with room for\n"
      "4 * BLOCKS - 2 names; it does not grow.  -p makes those above it too." },
    { "rmdir", command_rmdir, "VOLUME PATH...", "Deletes empty folders, in one step." },
    { "attr", command_attr, "VOLUME PATH [get FILE|set FILE|clear]",
      "Says how many blocks of attributes a file has; gets them as FILE (- is standard\n"
      "output), sets them from FILE (- is standard input; zeros fill the last block),\n"
      "or takes them away." },
    { "settings", command_settings, "VOLUME BOX [put FILE|get FILE [REVISION]]",
      "Settings of a box.  BOX is its serial number, 1 to 16 letters and digits, or a folder\n"
      "and the serial number, as /venue/SN4471.  Says the number of the latest revision; puts\n"
      "the bytes of FILE (- is standard input), at most 200, as a new one; gets the latest or\n"
      "another as FILE (- is standard output).  The last 16 revisions stand, in the file of\n"
      "that name in the root, or in the folder." },
    { "history", command_history, "VOLUME BOX",
      "Lists the revisions of a box's settings that stand, oldest first: their numbers, their\n"
      "lengths, and their bytes as text, or as hexadecimal digits where they are none." },
    { "start", command_start, "VOLUME",
      "Begins the journal anew: what was done before cannot be taken back any more." },
    { "grow", command_grow, "VOLUME BYTES",
      "Makes the journal BYTES long, and keeps all steps." },
    { "log", command_log, "VOLUME",
      "Lists the journal, oldest first: each step with its records, their blocks, and the\n"
      "paths that appeared (+), vanished (-) or changed (*)." },
    { "back", command_back, "VOLUME [N|--all] [--dry-run]",
      "Takes the last N steps back (1 if it is not said), or all.  --dry-run only says\n"
      "which paths would appear (+), vanish (-) or change (*)." },
    { "redo", command_redo, "VOLUME [N|--all]",
      "Makes the last N steps again that back took (1 if it is not said), or all, if nothing\n"
      "else was changed since.  Steps of more than 48 KiB together are not kept for this." },
    { "salvage", command_salvage, "VOLUME OUT",
      "Makes a sound copy OUT, with a journal just started, of what is whole of a damaged\n"
      "volume, and says by path what was dropped, put right and freed.  VOLUME is not changed." },
    { "extract", command_extract, "[--damaged] VOLUME FOLDER",
      "Copies all files of a volume to a new folder, all of them or nothing; with --damaged\n"
      "those that are whole of a damaged one, and says what became of the rest." },
    { "map", command_map, "VOLUME [--all] [--svg FILE]",
      "Shows what each block is used for; --all also rows that are free, --svg as a picture." },
    { "report", command_report, "VOLUME FILE.html", "Makes a page about the volume, its blocks and its journal." },
    { "diff", command_diff, "A B", "Says which paths differ between two volumes; status 1 if any." },
};

enum { COMMANDS = sizeof commands / sizeof *commands, USUAL_WAIT = 10, MOST_WAIT = 86400 };   /* seconds */

static const command *find_command(const char *name)
{
    for (int i = 0; i < COMMANDS; i++) {
        if (!strcmp(commands[i].name, name)) return &commands[i];
    }
    return NULL;
}

static void help(void)
{
    puts("Usage: bulgefs COMMAND VOLUME [ARGUMENTS] [--json] [--wait SECONDS]\n"
         "\n"
         "VOLUME is a volume file.  Looks take a bare image too.  `bulgefs COMMAND --help` says more.\n");
    for (int i = 0; i < COMMANDS; i++) printf("  %s %s\n", commands[i].name, commands[i].arguments);
    puts("\n"
         "A path is / and names with / between.  --json is for ls, info, check, history, log,\n"
         "salvage, extract, map, diff and errors.  --wait says how long to wait for a volume that is in\n"
         "use (10 seconds).  Exit status: 0 done, 1 refused or not sound, 2 wrong use or an\n"
         "error of the system or the tool, 3 in use.");
}

static int run_command(int argc, char **argv, const options *o, int wants_help)
{
    const command *one = find_command(argv[0]);
    if (!one) {
        say("no such command: %s; `bulgefs --help` lists them", argv[0]);
        return FAILED;
    }
    if (!wants_help) return one->run(argc, argv, o);
    printf("Usage: bulgefs %s %s [--json] [--wait SECONDS]\n\n%s\n", one->name, one->arguments, one->help);
    return DONE;
}

static int run(int argc, char **argv)
{
    options o = { take_flag(&argc, argv, "--json"), USUAL_WAIT };
    int wants_help = take_flag(&argc, argv, "--help") | take_flag(&argc, argv, "-h");
    const char *wait = NULL;
    if (o.json) say_json();
    if (!take_value(&argc, argv, "--wait", &wait)) return usage("COMMAND VOLUME [ARGUMENTS] [--wait SECONDS]");
    if (wait && read_number(wait, "--wait", 0, MOST_WAIT, &o.wait)) return FAILED;
    if (argc > 1) {
        if (strcmp(argv[1], "--version")) return run_command(argc - 1, argv + 1, &o, wants_help);
        puts("bulgefs " BULGEFS_VERSION_TEXT);
        return DONE;
    }
    if (!wants_help) return usage("COMMAND VOLUME [ARGUMENTS]; see bulgefs --help");
    help();
    return DONE;
}

/* A standard stream that is closed stays without use: otherwise a file of the volume would get its number, and words would be written into it. */
static int hold_standard(void)
{
    for (int file = STDIN_FILENO; file <= STDERR_FILENO; file++) {
        if (fcntl(file, F_GETFD) < 0 && open("/dev/null", file == STDIN_FILENO ? O_WRONLY : O_RDONLY) != file) return -1;
    }
    return 0;
}

int main(int argc, char **argv)
{
    struct sigaction ignore = { .sa_handler = SIG_IGN };
    int status;
    if (hold_standard()) return FAILED;
    /* A write above the limit for files then fails as on a full disk. */
    sigaction(SIGXFSZ, &ignore, NULL);
    status = run(argc, argv);
    if ((fflush(stdout) || ferror(stdout)) && !status) status = fail_system("standard output");
    return status;
}
