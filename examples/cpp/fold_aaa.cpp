// Folds aaa, three steps of label 01, at unit costs and prints the fold, which it then unrolls again. The memory that it lends
// is sized by the run reader's answer, so it would fold any other run as well.
#include "runfold.h"

#include <array>
#include <cstdint>
#include <iomanip>
#include <iostream>
#include <vector>

using Answer = std::array<std::uint64_t, RUNFOLD_ENTRIES>;

static int refused(const Answer &answer)
{
    std::cout << "refused " << answer[RUNFOLD_REFUSAL] << " at " << answer[RUNFOLD_PLACE] << ": "
              << runfold_refusal_text(answer[RUNFOLD_REFUSAL]) << "\n";
    return 1;
}

int main()
{
    const std::vector<std::uint8_t> run{0x10, 0x01, 0x10, 0x01, 0x10, 0x01};
    Answer answer{};

    if (runfold_read_run(run.data(), run.size(), answer.data(), answer.size()) != RUNFOLD_OK)
        return refused(answer);
    const std::size_t nodes = answer[RUNFOLD_NODES];
    std::cout << "nodes " << nodes << ", steps " << answer[RUNFOLD_STEPS] << ", depth " << answer[RUNFOLD_DEPTH] << "\n";

    std::array<std::uint16_t, 256> steps, groups;
    steps.fill(1);
    groups.fill(1);
    // No label is marked: a 1 would keep it out of all repeats.
    const std::array<std::uint8_t, 256> marks{};
    std::vector<std::uint32_t> costs(RUNFOLD_WORK(nodes));
    std::vector<std::uint32_t> choices(RUNFOLD_WORK(nodes));
    std::vector<std::uint8_t> fold(RUNFOLD_ROOM(nodes));
    if (runfold_fold(run.data(), run.size(), RUNFOLD_MAX_WIDTH, steps.data(), steps.size(), groups.data(), groups.size(),
                     marks.data(), marks.size(), 1, 0, costs.data(), costs.size(), choices.data(), choices.size(), fold.data(),
                     fold.size(), answer.data(), answer.size()) != RUNFOLD_OK)
        return refused(answer);
    fold.resize(answer[RUNFOLD_LENGTH]);
    std::cout << "cost " << answer[RUNFOLD_COST] << "\nfold " << std::hex << std::uppercase << std::setfill('0');
    for (const unsigned byte : fold)
        std::cout << std::setw(2) << byte;
    std::cout << "\n";

    std::vector<std::uint8_t> back(RUNFOLD_MAX_RUN);
    if (runfold_unroll(fold.data(), fold.size(), RUNFOLD_MAX_WIDTH, back.data(), back.size(), answer.data(), answer.size()) !=
        RUNFOLD_OK)
        return refused(answer);
    back.resize(answer[RUNFOLD_LENGTH]);
    return back == run ? 0 : 1;
}
