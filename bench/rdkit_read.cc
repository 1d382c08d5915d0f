// Reads an SDfile with RDKit, and with a second word labels each record by RDKit's newer labeller.
//
// usage: rdkit_read FILE.sdf [label]
//
// It prints how many records there are, and how many of them RDKit reads and labels. What it does beyond that is nothing,
// so that its time is RDKit's own. The status is 0, 2 for other words, 3 where the file can't be read.
#include <CIPLabeler/CIPLabeler.h>
#include <GraphMol/FileParsers/MolSupplier.h>
#include <GraphMol/ROMol.h>
#include <RDGeneral/RDLog.h>

#include <cstring>
#include <exception>
#include <iostream>
#include <memory>

namespace {

enum Status { FINE = 0, WORDS = 2, UNREAD = 3 };

struct Counts {
    long records = 0, read = 0, labelled = 0;
};

bool is_labelled(RDKit::ROMol &molecule) {
    try {
        RDKit::CIPLabeler::assignCIPLabels(molecule);
        return true;
    } catch (const std::exception &) {
        return false;
    }
}

Counts counted(RDKit::SDMolSupplier &records, bool label) {
    Counts counts;
    while (!records.atEnd()) {
        std::unique_ptr<RDKit::ROMol> molecule(records.next());
        ++counts.records;
        if (!molecule) continue;
        ++counts.read;
        if (label && is_labelled(*molecule)) ++counts.labelled;
    }
    return counts;
}

}  // namespace

int main(int count, char **words) {
    const bool label = count == 3 && std::strcmp(words[2], "label") == 0;
    if (count != 2 && !label) {
        std::cerr << "usage: rdkit_read FILE.sdf [label]\n";
        return WORDS;
    }
    boost::logging::disable_logs("rdApp.*");
    try {
        const bool sanitize = true, remove_hydrogens = false;
        RDKit::SDMolSupplier records(words[1], sanitize, remove_hydrogens);
        const Counts counts = counted(records, label);
        std::cout << counts.records << " records, " << counts.read << " read, " << counts.labelled << " labelled\n";
        return FINE;
    } catch (const std::exception &fault) {
        std::cerr << "rdkit_read: " << words[1] << ": " << fault.what() << '\n';
        return UNREAD;
    }
}
