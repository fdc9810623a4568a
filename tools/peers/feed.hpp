// A feed of tools/make_feeds, for the programs in C++: `peaks`, `lines`, `depot`, `rural`, `sample` or `walks`. They have two rows
// a trip, whole minutes and no settings. It is no reader of other feeds.
#pragma once

#include <algorithm>
#include <ctime>
#include <fstream>
#include <iostream>
#include <map>
#include <sstream>
#include <string>
#include <vector>

const long long VEHICLE = 67'108'864;
const int NONE = 1 << 20;

struct Trip { int from, to, departs, ends; };

using Records = std::vector<std::vector<std::string>>;
using Matrix = std::vector<std::vector<int>>;

// The seconds of the processor so far.
inline double seconds() {
    timespec now;
    clock_gettime(CLOCK_PROCESS_CPUTIME_ID, &now);
    return now.tv_sec + now.tv_nsec / 1e9;
}

// The records of a file without double quotes, but for its header.
inline Records records(const std::string &path) {
    std::ifstream file(path);
    if (!file) std::exit((std::cerr << path << " cannot be read\n", 1));
    Records found;
    std::string line, field;
    for (std::getline(file, line); std::getline(file, line);) {
        std::istringstream fields(line);
        for (found.emplace_back(); std::getline(fields, field, ',');) found.back().push_back(field);
    }
    return found;
}

inline int minute(const std::string &time) { return std::stoi(time) * 60 + std::stoi(time.substr(time.find(':') + 1)); }

// The trips, with numbers for the places, and the minutes of the entries between these. Of each place the minutes from the depot
// and to it.
struct Feed {
    std::vector<Trip> trips;
    std::vector<std::string> names;
    Matrix walks;
    std::vector<int> pull_out, pull_in;

    explicit Feed(const std::string &folder) {
        std::map<std::string, int> numbers;
        auto place = [&](const std::string &name) { return numbers.emplace(name, numbers.size()).first->second; };
        const Records rows = records(folder + "/stop_times.txt"), entries = records(folder + "/deadheads.csv");
        for (size_t row = 0; row + 1 < rows.size(); row += 2) {
            const int from = place(rows[row][3]), to = place(rows[row + 1][3]);
            trips.push_back({from, to, minute(rows[row][2]), minute(rows[row + 1][1])});
            names.push_back(rows[row][0]);
        }
        for (const auto &entry : entries) place(entry[0]), place(entry[1]);
        walks.assign(numbers.size(), std::vector<int>(numbers.size(), NONE));
        for (size_t at = 0; at < walks.size(); at++) walks[at][at] = 0;
        for (const auto &entry : entries) walks[place(entry[0])][place(entry[1])] = std::stoi(entry[2]);
        pull_out.assign(numbers.size(), 0), pull_in = pull_out;
        if (std::ifstream(folder + "/depot.csv"))
            for (const auto &row : records(folder + "/depot.csv"))
                pull_out[place(row[0])] = std::stoi(row[1]), pull_in[place(row[0])] = std::stoi(row[2]);
    }

    // What it saves to make a trip next after another, which fits with these minutes between them.
    long long weight(const Trip &before, const Trip &after, int minutes) const {
        return VEHICLE + pull_in[before.to] + pull_out[after.from] - minutes;
    }

    // Makes the minutes of the entries those of the least walks.
    void close() {
        for (const auto &by : walks) {
            const size_t middle = &by - &walks[0];
            for (auto &from : walks)
                for (size_t to = 0; to < by.size() && from[middle] < NONE; to++)
                    from[to] = std::min(from[to], from[middle] + by[to]);
        }
    }
};
