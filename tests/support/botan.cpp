// Botan 2's verdicts and times for XMSS. The first word is the task; times are the processor's, in milliseconds.
// - verify: each input line has the paths of a public key, a message and a signature, with tabs between them; it prints
//   `verified` or `refused`.
// - time-verify PUBLIC MESSAGE SIGNATURE: one verification.
// - time-sign: making a key of height 10, and signing with it at leaf 0 and at leaf 499.
// - time-session COUNT: making such a key, and one of COUNT signatures by it while it stays in memory.
#include <algorithm>
#include <botan/auto_rng.h>
#include <botan/pubkey.h>
#include <botan/xmss.h>
#include <cstdio>
#include <ctime>
#include <fstream>
#include <functional>
#include <iostream>
#include <iterator>
#include <string>
#include <vector>

static std::vector<uint8_t> read(const std::string &path)
{
    std::ifstream file(path, std::ios::binary);
    return {std::istreambuf_iterator<char>(file), std::istreambuf_iterator<char>()};
}

// The shortest time of these runs, in milliseconds.
static double shortest(int rounds, const std::function<void()> &run)
{
    double least = 1e9;
    for (int round = 0; round < rounds; round++) {
        const std::clock_t start = std::clock();
        run();
        least = std::min(least, 1e3 * (std::clock() - start) / CLOCKS_PER_SEC);
    }
    return least;
}

// Refuses bytes that don't decode, too.
static bool verifies(const std::string &key, const std::string &message, const std::string &signature)
{
    try {
        const Botan::XMSS_PublicKey read_key(read(key));
        Botan::PK_Verifier verifier(read_key, "");
        return verifier.verify_message(read(message), read(signature));
    } catch (const std::exception &) {
        return false;
    }
}

static void verify_lines()
{
    std::string key, message, signature;
    while (std::getline(std::cin, key, '\t') && std::getline(std::cin, message, '\t') &&
           std::getline(std::cin, signature))
        std::puts(verifies(key, message, signature) ? "verified" : "refused");
}

static int time_verify(char **paths)
{
    const std::vector<uint8_t> message = read(paths[1]), signature = read(paths[2]);
    const Botan::XMSS_PublicKey key(read(paths[0]));
    bool verified = true;
    const double took = shortest(200, [&] {
        Botan::PK_Verifier verifier(key, "");
        verified = verified && verifier.verify_message(message, signature);
    });
    std::printf("%f\n", took);
    return verified ? 0 : 1;
}

static void time_sign()
{
    Botan::AutoSeeded_RNG random;
    const std::vector<uint8_t> message = {1};
    const auto type = Botan::XMSS_Parameters::XMSS_SHA2_10_256;
    const double make = shortest(3, [&] { Botan::XMSS_PrivateKey key(type, random); });
    Botan::XMSS_PrivateKey key(type, random);
    const auto sign = [&] { Botan::PK_Signer(key, random, "").sign_message(message, random); };
    const double first = shortest(1, sign);
    key.set_unused_leaf_index(499);
    const double later = shortest(1, sign);
    std::printf("%f %f %f\n", make, first, later);
}

static void time_session(int count)
{
    Botan::AutoSeeded_RNG random;
    const std::vector<uint8_t> message = {1};
    const auto type = Botan::XMSS_Parameters::XMSS_SHA2_10_256;
    const double make = shortest(3, [&] { Botan::XMSS_PrivateKey key(type, random); });
    Botan::XMSS_PrivateKey key(type, random);
    Botan::PK_Signer signer(key, random, "");
    const double all = shortest(1, [&] {
        for (int leaf = 0; leaf < count; leaf++)
            signer.sign_message(message, random);
    });
    std::printf("%f %f\n", make, all / count);
}

int main(int, char **words)
{
    const std::string wanted = words[1];
    if (wanted == "verify")
        verify_lines();
    else if (wanted == "time-verify")
        return time_verify(words + 2);
    else if (wanted == "time-sign")
        time_sign();
    else if (wanted == "time-session")
        time_session(std::stoi(words[2]));
    else
        return 2;
    return 0;
}
