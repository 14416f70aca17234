/*
 * on_windows PROGRAM
 *
 * Starts the program on Windows in ways that no other system has, and prints what ended otherwise than it has to.
 * The last line is 'N passed, M failed'.
 */
#include <stdio.h>
#include <string.h>
#include <wchar.h>
#include <windows.h>

#define ACE "(A;;FA;;;SY)"

/* An answer of many ACEs is longer than what the program writes to a console at once, and fits on a screen of so many
 * rows. */
enum {
    MOST = 4096,
    COLUMNS = 80,
    ROWS = 300,
    LONG_ACES = 1500
};

static const wchar_t *program;
static int passed, failed;
/* What is waited for behind the first piece of an input; null for nothing. */
static HANDLE reader;

struct ended {
    DWORD status;
    char output[MOST], message[MOST];
};

static void add(int is_right, const char *what, const struct ended *ended)
{
    if (is_right) {
        passed++;
    } else {
        failed++;
        printf("FAIL %s: status %lu, output %s, message %s\n", what, ended->status, ended->output, ended->message);
    }
}

/* A pipe, of which the child gets the end that is named 0, for reading, or 1, for writing. */
static void make_pipe(HANDLE ends[2], int inherited)
{
    SECURITY_ATTRIBUTES inherits = {sizeof inherits, NULL, TRUE};

    CreatePipe(&ends[0], &ends[1], &inherits, 0);
    SetHandleInformation(ends[1 - inherited], HANDLE_FLAG_INHERIT, 0);
}

static void read_all(HANDLE handle, char *text)
{
    DWORD got, length = 0;

    while (length < MOST - 1 && ReadFile(handle, text + length, MOST - 1 - length, &got, NULL) && got != 0)
        length += got;
    text[length] = 0;
}

static HANDLE null_device(void)
{
    SECURITY_ATTRIBUTES inherits = {sizeof inherits, NULL, TRUE};

    return CreateFileW(L"NUL", GENERIC_READ | GENERIC_WRITE, FILE_SHARE_READ | FILE_SHARE_WRITE, &inherits,
                       OPEN_EXISTING, 0, NULL);
}

/*
 * Runs the program with these words. Each of the PIECES goes to its input in a write of its own, also an empty one;
 * without them INPUT is the input. Without an OUTPUT the output goes to a pipe.
 */
static struct ended run(const wchar_t *words, const char *const *pieces, HANDLE input, HANDLE output)
{
    struct ended ended = {0};
    wchar_t line[MOST];
    HANDLE in[2] = {input, NULL}, out[2] = {NULL, output}, err[2];
    STARTUPINFOW start = {.cb = sizeof start, .dwFlags = STARTF_USESTDHANDLES};
    PROCESS_INFORMATION child;
    DWORD took;

    if (pieces != NULL)
        make_pipe(in, 0);
    if (output == NULL)
        make_pipe(out, 1);
    make_pipe(err, 1);
    start.hStdInput = in[0];
    start.hStdOutput = out[1];
    start.hStdError = err[1];
    _snwprintf(line, MOST, L"sdtool %ls", words);
    if (!CreateProcessW(program, line, NULL, NULL, TRUE, 0, NULL, NULL, &start, &child)) {
        ended.status = 1000 + GetLastError();
        return ended;
    }
    if (pieces != NULL)
        CloseHandle(in[0]);
    if (output == NULL)
        CloseHandle(out[1]);
    CloseHandle(err[1]);
    for (; pieces != NULL && *pieces != NULL; pieces++) {
        WriteFile(in[1], *pieces, (DWORD)strlen(*pieces), &took, NULL);
        if (reader != NULL)
            WaitForSingleObject(reader, INFINITE);
        else
            Sleep(50);
    }
    if (in[1] != NULL)
        CloseHandle(in[1]);
    if (out[0] != NULL)
        read_all(out[0], ended.output);
    read_all(err[0], ended.message);
    WaitForSingleObject(child.hProcess, INFINITE);
    GetExitCodeProcess(child.hProcess, &ended.status);
    return ended;
}

/* Types text at a console: each character as a key that goes down and up. */
static void type(HANDLE console, const wchar_t *text)
{
    for (; *text; text++) {
        INPUT_RECORD keys[2] = {{.EventType = KEY_EVENT}};
        KEY_EVENT_RECORD *key = &keys[0].Event.KeyEvent;
        DWORD took;

        key->bKeyDown = TRUE;
        key->wRepeatCount = 1;
        key->uChar.UnicodeChar = *text;
        key->wVirtualKeyCode = *text == L'\r' ? VK_RETURN : *text == 0x1a ? 'Z' : (WORD)(VkKeyScanW(*text) & 0xff);
        key->dwControlKeyState = *text == 0x1a ? LEFT_CTRL_PRESSED : 0;
        keys[1] = keys[0];
        keys[1].Event.KeyEvent.bKeyDown = FALSE;
        WriteConsoleInputW(console, keys, 2, &took);
    }
}

static HANDLE console_of(const wchar_t *name)
{
    SECURITY_ATTRIBUTES inherits = {sizeof inherits, NULL, TRUE};

    return CreateFileW(name, GENERIC_READ | GENERIC_WRITE, FILE_SHARE_READ | FILE_SHARE_WRITE, &inherits, OPEN_EXISTING,
                       0, NULL);
}

/* A screen of a console that shows nothing yet. */
static HANDLE new_screen(void)
{
    SECURITY_ATTRIBUTES inherits = {sizeof inherits, NULL, TRUE};
    HANDLE screen = CreateConsoleScreenBuffer(GENERIC_READ | GENERIC_WRITE, FILE_SHARE_READ | FILE_SHARE_WRITE,
                                              &inherits, CONSOLE_TEXTMODE_BUFFER, NULL);

    SetConsoleScreenBufferSize(screen, (COORD){COLUMNS, ROWS});
    SetConsoleActiveScreenBuffer(screen);
    return screen;
}

/* Whether a screen shows this text from its top on, and nothing else. */
static int shows(HANDLE screen, const char *text)
{
    static wchar_t cells[COLUMNS * ROWS], expected[COLUMNS * ROWS];
    DWORD got = 0;
    size_t at = 0;

    wmemset(expected, L' ', COLUMNS * ROWS);
    for (; *text && at < COLUMNS * ROWS; text++) {
        if (*text == '\n')
            at += COLUMNS - at % COLUMNS;
        else
            expected[at++] = (unsigned char)*text;
    }
    ReadConsoleOutputCharacterW(screen, cells, COLUMNS * ROWS, (COORD){0, 0}, &got);
    return got == COLUMNS * ROWS && wmemcmp(cells, expected, got) == 0;
}

static int is(const struct ended *ended, DWORD status, const char *output, const char *message)
{
    return ended->status == status && strcmp(ended->output, output) == 0 && strcmp(ended->message, message) == 0;
}

/* A new file that is open in one direction alone, and is gone when it is closed. */
static HANDLE file_for(DWORD access)
{
    SECURITY_ATTRIBUTES inherits = {sizeof inherits, NULL, TRUE};
    wchar_t folder[MAX_PATH], path[MAX_PATH];

    GetTempPathW(MAX_PATH, folder);
    GetTempFileNameW(folder, L"sd", 0, path);
    return CreateFileW(path, access, FILE_SHARE_READ | FILE_SHARE_WRITE | FILE_SHARE_DELETE, &inherits, OPEN_EXISTING,
                       FILE_FLAG_DELETE_ON_CLOSE, NULL);
}

static DWORD WINAPI read_a_line(void *pipe)
{
    char byte = 0;
    DWORD got = 1;

    while (got == 1 && byte != '\n' && ReadFile(pipe, &byte, 1, &got, NULL))
        ;
    CloseHandle(pipe);
    return byte;
}

/* Files that cannot be read or written, a folder, and a reader that goes after the first answer. */
static void try_faults(const wchar_t *words)
{
    static const char *const pieces[] = {"O:SY\n", "O:BA\n", "O:BU\n", "O:WD\n", NULL};
    SECURITY_ATTRIBUTES inherits = {sizeof inherits, NULL, TRUE};
    HANDLE folder = CreateFileW(L".", GENERIC_READ, FILE_SHARE_READ | FILE_SHARE_WRITE, &inherits, OPEN_EXISTING,
                                FILE_FLAG_BACKUP_SEMANTICS, NULL);
    HANDLE pipe[2];
    DWORD last = 0;
    struct ended ended = run(words, NULL, file_for(GENERIC_WRITE), NULL);

    add(is(&ended, 3, "", "sdtool: error 60 read\n"), "an input that is open for writing", &ended);
    ended = run(words, NULL, folder, NULL);
    add(is(&ended, 3, "", "sdtool: error 60 read\n"), "a folder as input", &ended);
    ended = run(words, pieces, NULL, file_for(GENERIC_READ));
    add(is(&ended, 3, "", "sdtool: error 61 write\n"), "an output that is open for reading", &ended);
    make_pipe(pipe, 1);
    reader = CreateThread(NULL, 0, read_a_line, pipe[0], 0, NULL);
    ended = run(words, pieces, NULL, pipe[1]);
    GetExitCodeThread(reader, &last);
    reader = NULL;
    add(last == '\n' && is(&ended, 3, "", "sdtool: error 61 write\n"), "a reader that goes after an answer", &ended);
}

/* What the program answers to lines that are typed at a console. */
static void try_typed(const wchar_t *words, HANDLE console, const wchar_t *typed, DWORD status, const char *answers)
{
    struct ended ended;
    char what[MOST];

    type(console, typed);
    ended = run(words, NULL, console, NULL);
    snprintf(what, sizeof what, "typed: %ls", typed);
    add(is(&ended, status, answers, ""), what, &ended);
}

/* Lines that are typed at a console, and answers that it shows. */
static void try_console(const wchar_t *words)
{
    static const char *const pieces[] = {"O:SY\nzz\n", "O:BAG:SY\n", NULL};
    static char line[sizeof "D:" + LONG_ACES * (sizeof ACE - 1)];
    const char *const long_piece[] = {line, NULL};
    UINT code_page;
    HANDLE input, screen;
    DWORD mode;
    struct ended ended;

    FreeConsole();
    AllocConsole();
    input = console_of(L"CONIN$");
    /* Wine gives consoles only where it has a display or a terminal. */
    if (!GetConsoleMode(input, &mode)) {
        puts("skipped: there is no console");
        return;
    }
    try_typed(words, input, L"O:SY\rzz\r\x1a\r", 1, "O:SY\nerror 20 shape\n");
    try_typed(words, input, L"O:BA\r\x1a what follows it\r", 0, "O:BA\n");
    try_typed(words, input, L"\x1a\r", 0, "");
    try_typed(words, input,
              L"O:B\x1a"
              L"A\rO:SY\r\x1a\r",
              1, "error 25 sid-form\nO:SY\n");
    code_page = GetConsoleCP();
    for (int is_utf8 = 0; is_utf8 < 2; is_utf8++) {
        SetConsoleCP(is_utf8 ? CP_UTF8 : code_page);
        try_typed(words, input, L"\x00e9\rO:SY\r\x1a\r", 1, "error 20 shape\nO:SY\n");
    }
    SetConsoleCP(code_page);
    screen = new_screen();
    ended = run(words, pieces, NULL, screen);
    add(is(&ended, 1, "", "") && shows(screen, "O:SY\nerror 20 shape\nO:BAG:SY\n"), "answers on a console", &ended);
    screen = new_screen();
    strcpy(line, "D:");
    for (int ace = 0; ace < LONG_ACES; ace++)
        memcpy(line + strlen("D:") + ace * strlen(ACE), ACE, sizeof ACE);
    ended = run(words, long_piece, NULL, screen);
    add(is(&ended, 0, "", "") && shows(screen, line), "a long answer on a console", &ended);
}

int main(void)
{
    static const char *const no_pieces[] = {NULL}, *const pieces[] = {"O:S", "", "Y\r", "\n", "", "O:BA", NULL};
    static const char *const control_z[] = {"O:SY\n\x1aO:BA\n", "\x1a", "\nO:BA\n", NULL};
    static const wchar_t from[] = L"convert --from sddl";
    HANDLE closed[2];
    struct ended ended;
    int count;
    wchar_t **words = CommandLineToArgvW(GetCommandLineW(), &count);

    if (words == NULL || count < 2)
        return 2;
    program = words[1];

    ended = run(from, pieces, NULL, NULL);
    add(is(&ended, 0, "O:SY\nO:BA\n", ""), "pieces, some of them empty", &ended);
    ended = run(from, control_z, NULL, NULL);
    add(is(&ended, 1, "O:SY\nerror 20 shape\nerror 20 shape\nO:BA\n", ""), "Control-Z is a byte as others", &ended);
    ended = run(from, no_pieces, NULL, NULL);
    add(is(&ended, 0, "", ""), "an empty pipe", &ended);
    ended = run(from, NULL, null_device(), NULL);
    add(is(&ended, 0, "", ""), "NUL as input", &ended);
    ended = run(from, pieces, NULL, null_device());
    add(is(&ended, 0, "", ""), "NUL as output", &ended);
    ended = run(from, NULL, NULL, NULL);
    add(is(&ended, 3, "", "sdtool: error 60 read\n"), "no input", &ended);
    ended = run(from, NULL, INVALID_HANDLE_VALUE, NULL);
    add(is(&ended, 3, "", "sdtool: error 60 read\n"), "an input that is none", &ended);
    ended = run(from, pieces, NULL, INVALID_HANDLE_VALUE);
    add(is(&ended, 3, "", "sdtool: error 61 write\n"), "an output that is none", &ended);
    make_pipe(closed, 1);
    CloseHandle(closed[0]);
    ended = run(from, pieces, NULL, closed[1]);
    add(is(&ended, 3, "", "sdtool: error 61 write\n"), "a pipe that nobody reads", &ended);
    ended = run(L"convert --domain \xd800", no_pieces, NULL, NULL);
    add(is(&ended, 2, "", "sdtool: usage\n"), "half of a surrogate pair", &ended);
    ended = run(L"convert --domain \xdc00\xd800", no_pieces, NULL, NULL);
    add(is(&ended, 2, "", "sdtool: usage\n"), "a surrogate pair the wrong way round", &ended);
    ended = run(L"convert --domain \xd83d\xde00", no_pieces, NULL, NULL);
    add(is(&ended, 2, "", "sdtool: usage: --domain\n"), "a surrogate pair, which is text but no SID", &ended);
    ended = run(L"convert --domain \x00e9\x20ac", no_pieces, NULL, NULL);
    add(is(&ended, 2, "", "sdtool: usage: --domain\n"), "letters of two and three bytes", &ended);
    ended = run(L"convert \"--from\" \"sddl\"", pieces, NULL, NULL);
    add(is(&ended, 0, "O:SY\nO:BA\n", ""), "words in quotes", &ended);
    ended = run(L"convert --domain *", no_pieces, NULL, NULL);
    add(is(&ended, 2, "", "sdtool: usage: --domain\n"), "a wildcard stays a word", &ended);
    try_faults(from);
    try_console(from);
    printf("%d passed, %d failed\n", passed, failed);
    return failed != 0;
}
