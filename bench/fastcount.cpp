// What a plain reader in C++ takes for the work of `unify count`: a measure, and no part of the program.
//
//     fastcount MAP NAME=FOLDER ..
//
// It reads the map, each host's passwd, group and mtree, and prints how many user and how many group
// fields of files the map changes. It takes lawful texts alone: numbers are not checked, no file may be
// without an account, and of the escapes it knows the octal ones. Paths stand in a table of hashes.
#include <cstdint>
#include <cstdio>
#include <cstdlib>
#include <cstring>
#include <string>
#include <string_view>
#include <unordered_map>
#include <vector>

using std::string;
using std::string_view;
using Numbers = std::unordered_map<uint32_t, uint32_t>;
using Names = std::unordered_map<string, uint32_t>;

[[noreturn]] static void stop(string_view why, string_view what) {
    fprintf(stderr, "fastcount: %.*s: %.*s\n", int(why.size()), why.data(), int(what.size()), what.data());
    exit(1);
}

static FILE *opened(const string &path) {
    FILE *file = fopen(path.c_str(), "r");
    if (!file) stop("cannot open", path);
    return file;
}

// ---- the files by path

static uint64_t mixed(uint64_t a, uint64_t b) {
    __uint128_t product = __uint128_t(a) * b;
    return uint64_t(product) ^ uint64_t(product >> 64);
}

static uint32_t hash_of(string_view bytes) {
    uint64_t hash = bytes.size(), word = 0;
    while (bytes.size() >= 8) {
        memcpy(&word, bytes.data(), 8);
        hash = mixed(hash ^ word, 0x9e3779b97f4a7c15) + word;
        bytes.remove_prefix(8);
    }
    word = 0;
    memcpy(&word, bytes.data(), bytes.size());
    return uint32_t(mixed(hash ^ word, 0xd6e8feb86659fd93));
}

struct File {
    string_view path;
    uint32_t uid, gid, hash;
};

// Paths lie one behind the other in large blocks, and the table has the places of the files.
class Files {
    static constexpr size_t block_len = 1 << 20;
    std::vector<std::vector<char>> blocks;
    size_t used = block_len;
    std::vector<File> files;
    std::vector<uint32_t> table = std::vector<uint32_t>(1 << 16, 0);

    string_view kept(string_view path) {
        if (used + path.size() > block_len) {
            blocks.emplace_back(block_len);
            used = 0;
        }
        char *place = blocks.back().data() + used;
        memcpy(place, path.data(), path.size());
        used += path.size();
        return {place, path.size()};
    }

    void grow() {
        std::vector<uint32_t> larger(table.size() * 2, 0);
        for (uint32_t i = 0; i < files.size(); i++) {
            size_t at = files[i].hash & (larger.size() - 1);
            while (larger[at]) at = (at + 1) & (larger.size() - 1);
            larger[at] = i + 1;
        }
        table.swap(larger);
    }

public:
    // Whether the path is new.
    bool add(string_view path, uint32_t uid, uint32_t gid) {
        uint32_t hash = hash_of(path);
        size_t at = hash & (table.size() - 1);
        for (; table[at]; at = (at + 1) & (table.size() - 1)) {
            const File &known = files[table[at] - 1];
            if (known.hash != hash || known.path != path) continue;
            if (known.uid != uid || known.gid != gid) stop("two owners", path);
            return false;
        }
        files.push_back({kept(path), uid, gid, hash});
        table[at] = uint32_t(files.size());
        if (files.size() * 2 > table.size()) grow();
        return true;
    }
};

// ---- a host

static Numbers new_numbers(const string &path, const Names &names) {
    Numbers found;
    FILE *file = opened(path);
    char line[4096];
    while (fgets(line, sizeof line, file)) {
        char *name_end = strchr(line, ':');
        char *number = strchr(name_end + 1, ':') + 1;
        auto name = names.find(string(line, name_end));
        if (name != names.end()) found[uint32_t(strtoul(number, nullptr, 10))] = name->second;
    }
    fclose(file);
    return found;
}

static bool is_white(char byte) { return byte == ' ' || byte == '\t'; }

// The first word of a line, which is taken from its front; empty at its end.
static string_view word_of(string_view &line) {
    size_t start = 0, end;
    while (start < line.size() && is_white(line[start])) start++;
    for (end = start; end < line.size() && !is_white(line[end]);) end++;
    string_view word = line.substr(start, end - start);
    line.remove_prefix(end);
    return word;
}

template <size_t N> static bool begins(string_view text, const char (&front)[N]) {
    return text.size() >= N - 1 && memcmp(text.data(), front, N - 1) == 0;
}

static int64_t number_of(string_view digits) {
    int64_t number = 0;
    for (char digit : digits) number = number * 10 + (digit - '0');
    return number;
}

struct Keywords {
    int64_t uid = -1, gid = -1;
    bool is_dir = false;

    void take(string_view line) {
        for (string_view word = word_of(line); !word.empty(); word = word_of(line)) {
            if (begins(word, "uid=")) uid = number_of(word.substr(4));
            else if (begins(word, "gid=")) gid = number_of(word.substr(4));
            else if (begins(word, "type=")) is_dir = word.substr(5) == "dir";
        }
    }
};

// How many bytes an octal escape at the front takes, if one is there.
static size_t escape_len(string_view rest) {
    bool is_octal = rest.size() >= 4 && rest[0] == '\\';
    for (size_t i = 1; is_octal && i < 4; i++) is_octal = rest[i] >= '0' && rest[i] <= '7';
    return is_octal ? 4 : 0;
}

class Host {
    const Numbers &users, &groups;
    Files files;
    Keywords set;
    string directory, path, part;
    std::vector<size_t> starts;

    void add_part() {
        if (part.empty() || part == ".") return;
        if (!path.empty()) path.push_back('/');
        path += part;
    }

    // The path of a word, with no escape, no empty component and no `.` in it.
    string_view path_of(string_view word, bool is_full) {
        path.clear();
        if (!is_full) path = directory;
        part.clear();
        while (!word.empty()) {
            if (escape_len(word)) {
                part.push_back(char((word[1] - '0') * 64 + (word[2] - '0') * 8 + (word[3] - '0')));
                word.remove_prefix(4);
                continue;
            }
            if (word[0] == '/') {
                add_part();
                part.clear();
            } else {
                part.push_back(word[0]);
            }
            word.remove_prefix(1);
        }
        add_part();
        return path;
    }

    // A full path that is as it is to be, behind `./`, needs no copy.
    static bool is_simple(string_view word) {
        if (!begins(word, "./")) return false;
        const char *at = word.data() + 1, *end = word.data() + word.size();
        for (; at < end; at++) {
            if (*at == '\\') return false;
            if (*at != '/') continue;
            if (at + 1 == end || at[1] == '/') return false;
            if (at[1] == '.' && (at + 2 == end || at[2] == '/')) return false;
        }
        return true;
    }

    void count(string_view name, const Keywords &own) {
        if (name.empty()) name = ".";
        if (!files.add(name, uint32_t(own.uid), uint32_t(own.gid))) return;
        auto user = users.find(uint32_t(own.uid)), group = groups.find(uint32_t(own.gid));
        if (user == users.end() || group == groups.end()) stop("no account owns", name);
        user_fields += user->second != user->first;
        group_fields += group->second != group->first;
    }

public:
    uint64_t user_fields = 0, group_fields = 0;

    Host(const Numbers &users, const Numbers &groups) : users(users), groups(groups) {}

    void line(string_view text) {
        string_view word = word_of(text);
        if (word.empty() || word[0] == '#') return;
        if (word[0] == '/') return set.take(text);
        if (word == "..") {
            directory.resize(starts.back());
            return starts.pop_back();
        }
        Keywords own = set;
        own.take(text);
        bool is_simply_full = is_simple(word);
        bool is_full = is_simply_full || word.find('/') != string_view::npos;
        string_view name = is_simply_full ? word.substr(2) : path_of(word, is_full);
        if (!is_full && own.is_dir) {
            starts.push_back(directory.size());
            directory.assign(name);
        }
        count(name, own);
    }
};

// Hands each line of a file to the host, joined with the next where it ends in a backslash.
static void read_inventory(const string &name, Host &host) {
    FILE *file = opened(name);
    std::vector<char> buffer(1 << 17);
    string joined;
    size_t have = 0, got;
    while ((got = fread(buffer.data() + have, 1, 1 << 16, file)) > 0) {
        have += got;
        char *front = buffer.data(), *end = front + have;
        while (char *newline = static_cast<char *>(memchr(front, '\n', end - front))) {
            bool is_joined = newline > front && newline[-1] == '\\';
            string_view text(front, newline - front - is_joined);
            front = newline + 1;
            if (!is_joined && joined.empty()) {
                host.line(text);
                continue;
            }
            joined += text;
            if (is_joined) continue;
            host.line(joined);
            joined.clear();
        }
        have = end - front;
        memmove(buffer.data(), front, have);
    }
    fclose(file);
}

int main(int count, char **words) {
    if (count < 3) stop("give", "a map, and NAME=FOLDER of each host");
    Names users, groups;
    FILE *map = opened(words[1]);
    char kind[16], name[256];
    unsigned number;
    while (fscanf(map, "%15s %255s %u", kind, name, &number) == 3) (kind[0] == 'u' ? users : groups)[name] = number;
    fclose(map);
    uint64_t user_fields = 0, group_fields = 0;
    for (int i = 2; i < count; i++) {
        string folder = strchr(words[i], '=') + 1;
        Numbers new_users = new_numbers(folder + "/passwd", users), new_groups = new_numbers(folder + "/group", groups);
        Host host(new_users, new_groups);
        read_inventory(folder + "/mtree", host);
        user_fields += host.user_fields;
        group_fields += host.group_fields;
    }
    printf("user-fields %lu\ngroup-fields %lu\n", user_fields, group_fields);
}
