// Reads a batch (as `./run encode` writes it) and prints the report of the tape that it leaves.
#include "tapebox.hpp"

#include <iostream>
#include <sstream>

namespace {

// The bytes that the digits of a message line ("N 0026..") write.
std::string message_of(const std::string &line) {
    std::string bytes;
    for (size_t at = 2; at + 2 <= line.size(); at += 2) bytes.push_back(static_cast<char>(std::stoi(line.substr(at, 2), nullptr, 16)));
    return bytes;
}

void print(const std::string &symbol, const std::string &who, const tapebox_figures &figures) {
    std::cout << symbol << ',' << who;
    for (const auto &mark : {figures.opening, figures.high, figures.low, figures.last}) {
        if (mark.place)
            std::cout << ',' << mark.price << ',' << mark.place;
        else
            std::cout << ",,";
    }
    std::cout << ',' << figures.volume << ',' << figures.trades << '\n';
}

void print_report(const tapebox::tape &tape, const std::string &symbols, const std::string &participants) {
    std::cout << "symbol,who,open,open_at,high,high_at,low,low_at,last,last_at,volume,trades\n";
    std::istringstream names(symbols);
    for (std::string symbol; names >> symbol;) {
        print(symbol, "ALL", tape.summary(symbol));
        std::istringstream letters(participants);
        for (char who; letters >> who;) {
            const auto figures = tape.summary(symbol, who);
            if (figures.trades) print(symbol, std::string(1, who), figures);
        }
    }
}

} // namespace

int main() {
    std::string symbols, participants;
    std::getline(std::cin, symbols);
    std::getline(std::cin, participants);
    try {
        tapebox::tape tape(symbols, participants);
        for (std::string line; std::getline(std::cin, line);) {
            try {
                tape.admit(message_of(line));
            } catch (const tapebox::refused &refusal) {
                std::cerr << "refused " << refusal.code << '\n';
            }
        }
        print_report(tape, symbols, participants);
    } catch (const tapebox::refused &refusal) {
        std::cerr << "refused " << refusal.code << '\n';
        return 2;
    }
    return 0;
}
