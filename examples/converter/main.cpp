// A converter's signing and checking of layout tables, as an example to copy from. README.md tells of its files and exit statuses.
#include <getopt.h>

#include <exception>
#include <iostream>
#include <string>
#include <string_view>

#include "commands.hpp"
#include "failure.hpp"

namespace {

using converter::Failure;

constexpr std::string_view help =
    R"(usage: converter [-d FOLDER] [--no-wait] COMMAND

commands:
  make-key      make the files of a new key in FOLDER; refused where one of them is there
  sign TABLE    write the signature TABLE.sig, with one of the key's 1,024 indices
  check TABLE   accept or refuse TABLE by TABLE.sig; of the key's files it needs layout.key alone

options:
  -d FOLDER     where the key's files are: layout.key, layout.secret, layout.page (without it: this folder)
  --no-wait     end at once with status 75 where another run holds the key's lock, and do not wait for it
  --help        this text
  --version     the library's version

The exit status is 0 where the command was done or the table accepted, else the number that the message names.
)";

enum class Command { help, version, make_key, sign, check };

struct Request {
    Command command;
    converter::KeyFiles files;
    converter::Path table;
    converter::Waiting waiting;
};

[[noreturn]] void misused(const std::string &cause) { throw Failure{converter::status_usage, cause, "converter --help tells more."}; }

// The command and its table, from the words behind the options.
void take_words(Request &request, int count, char **words) {
    const std::string_view name = count > 0 ? words[0] : "";
    if (name == "make-key" && count == 1) {
        request.command = Command::make_key;
    } else if ((name == "sign" || name == "check") && count == 2) {
        request.command = name == "sign" ? Command::sign : Command::check;
        request.table = words[1];
    } else {
        misused("converter: a command is needed: make-key, sign TABLE or check TABLE");
    }
}

Request request_of(int count, char **words) {
    const option long_options[] = {
        {"no-wait", no_argument, nullptr, 'n'},
        {"help", no_argument, nullptr, 'h'},
        {"version", no_argument, nullptr, 'v'},
        {nullptr, 0, nullptr, 0},
    };
    Request request{Command::help, {"."}, {}, converter::Waiting::wait};
    opterr = 0;
    for (int letter; (letter = ::getopt_long(count, words, "d:", long_options, nullptr)) != -1;) {
        switch (letter) {
        case 'd':
            request.files = {optarg};
            break;
        case 'n':
            request.waiting = converter::Waiting::refuse;
            break;
        case 'h':
            return request;
        case 'v':
            request.command = Command::version;
            return request;
        default:
            misused("converter: unknown option, or -d without a folder");
        }
    }
    take_words(request, count - optind, words + optind);
    return request;
}

void carry_out(const Request &request) {
    switch (request.command) {
    case Command::help:
        std::cout << help;
        break;
    case Command::version:
        std::cout << "converter, with Zabrintoly " ZAB_VERSION "\n";
        break;
    case Command::make_key:
        converter::make_key(request.files, request.waiting);
        std::cout << request.files.key.string() << ": made. Give this file to whoever checks; layout.secret and layout.page stay here, "
                  << "and an old copy of the page is never brought back.\n";
        break;
    case Command::sign: {
        const auto index = converter::sign_table(request.files, request.table, request.waiting);
        std::cout << converter::signature_of(request.table).string() << ": signed with index " << index << "; "
                  << zabrintoly::marks - 1 - index << " more can be signed with this key.\n";
        break;
    }
    case Command::check:
        // A converter reads its layout from these bytes. The example only counts them.
        const auto table = converter::checked_table(request.files, request.table);
        std::cout << request.table.string() << ": accepted, " << table.size() << " bytes.\n";
        break;
    }
}

std::string_view not_done_by(Command command) {
    switch (command) {
    case Command::make_key:
        return "no key was made";
    case Command::sign:
        return "no signature was given";
    case Command::check:
        return "the table was not accepted";
    default:
        return "nothing was done";
    }
}

// Cause, number, what was not done, what to do.
void tell(const Failure &failure, Command command) {
    const std::string_view kind = failure.status < converter::status_usage ? "outcome" : "status";
    std::cerr << failure.cause << " (" << kind << " " << failure.status << "); ";
    std::cerr << (failure.not_done.empty() ? not_done_by(command) : failure.not_done) << ".";
    std::cerr << (failure.advice.empty() ? "" : " ") << failure.advice << "\n";
}

} // namespace

int main(int count, char **words) {
    Command command = Command::help;
    try {
        const Request request = request_of(count, words);
        command = request.command;
        carry_out(request);
        return 0;
    } catch (const Failure &failure) {
        tell(failure, command);
        return failure.status;
    } catch (const std::exception &error) {
        tell({converter::status_fault, std::string("converter: ") + error.what()}, command);
        return converter::status_fault;
    }
}
