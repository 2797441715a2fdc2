// Something that takes a compiler a second.
#include <algorithm>
#include <functional>
#include <map>
#include <regex>
#include <string>
#include <unordered_map>
#include <variant>
#include <vector>
int main(int argc, char **argv) {
    std::map<std::string, std::vector<std::variant<int, double, std::string>>> m;
    std::unordered_map<std::string, std::function<int(int)>> f;
    std::regex r("([a-z]+)=([0-9]+)");
    std::smatch s;
    for (int k = 1; k < argc; k++) {
        std::string w = argv[k];
        if (std::regex_match(w, s, r)) {
            m[s[1]].push_back(std::stoi(s[2]));
            f[s[1]] = [=](int x) { return x + k; };
        } else
            m[w].push_back(w);
    }
    int n = 0;
    for (auto &[k, v] : m) {
        std::sort(v.begin(), v.end());
        for (auto &x : v)
            n += (int)x.index() + (f.count(k) ? f[k](n) : 0);
    }
    return n;
}
