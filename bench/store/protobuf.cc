// protobuf FILE TIMES: the same as protobuf.py, in C++.
#include <algorithm>
#include <chrono>
#include <cstdio>
#include <fstream>
#include <functional>
#include <iterator>
#include <string>
#include <vector>

#include "store_file.pb.h"

struct Time {
    double least, median;
};

static Time measure(const char *what, const std::function<void()> &run)
{
    std::vector<double> times;
    for (int i = 0; i < 2001; i++) {
        auto start = std::chrono::steady_clock::now();
        run();
        times.push_back(std::chrono::duration<double, std::nano>(std::chrono::steady_clock::now() - start).count());
    }
    std::sort(times.begin(), times.end());
    Time t = {times[0], times[times.size() / 2]};
    std::printf("%-60s least %11.0f ns   median %11.0f ns\n", what, t.least, t.median);
    return t;
}

static void beside(const char *what, Time library, Time other)
{
    std::printf("%-60s %.2f times (least), %.2f times (median)\n", what, library.least / other.least, library.median / other.median);
}

int main(int argc, char **argv)
{
    if (argc != 3)
        return 1;
    std::ifstream file(argv[1], std::ios::binary), numbers(argv[2]);
    std::string data((std::istreambuf_iterator<char>(file)), std::istreambuf_iterator<char>()), out;
    Time saving, loading;
    numbers >> saving.least >> saving.median >> loading.least >> loading.median;
    BinaryBlobStore store;
    if (!store.ParseFromString(data) || store.blob_size() != 16 || !store.SerializeToString(&out) || out != data) {
        std::fprintf(stderr, "protobuf reads another store\n");
        return 1;
    }
    Time serialize = measure("protobuf in C++: SerializeToString", [&] { store.SerializeToString(&out); });
    Time parse = measure("protobuf in C++: ParseFromString", [&] { store.ParseFromString(data); });
    beside("saving beside it", saving, serialize);
    beside("loading beside it", loading, parse);
    return 0;
}
