// Writes the rows of a query on a document, as the program does.
//
//     c++ rows.cpp $(pkg-config --cflags --libs rematch) -o rows
//     ./rows failed.query auth.log
#include <fstream>
#include <iostream>
#include <rematch.hpp>
#include <sstream>

static std::string file_at(const char *path) {
    std::ostringstream text;
    text << std::ifstream(path, std::ios::binary).rdbuf();
    return text.str();
}

int main(int count, char **words) try {
    if (count != 3)
        return 2;
    const std::string document = file_at(words[2]);
    rematch::query query(file_at(words[1]));
    const std::vector<std::string> &names = query.variables();
    for (const rematch::row &row : query.rows(document)) {
        if (row.empty())
            std::cout << "()";
        for (std::size_t k = 0; k < row.size(); k++) {
            std::cout << (k == 0 ? "" : " ") << names[k] << "=";
            if (row[k].is_absent())
                std::cout << "-";
            else
                std::cout << row[k].start << "-" << row[k].end;
        }
        std::cout << "\n";
    }
    return 0;
} catch (const rematch::refused &fault) {
    std::cerr << fault.what() << "\n";
    return static_cast<int>(fault.status);
}
