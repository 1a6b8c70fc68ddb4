#!/usr/bin/env python3
"""Writes the sheet of an office to standard output, to time a listing on: 64 classes, 8 roles and about 100 axioms of all five forms.

    office.py START > office.sheet

START is a number; each gives an office of its own, always the same. Most axioms put one class under another in a shallow
hierarchy of labels, people, departments, folders, services and devices. The others are picked by the start number.
"""
import random
import sys

# each group begins with what all of it is, and a class stands behind the class that it is under
LABELS = {'entry': None, 'internal': 'entry', 'shared': 'internal', 'confidential': 'internal', 'restricted': 'confidential',
          'critical': 'internal', 'public': 'entry', 'personal': 'entry'}
PEOPLE = {'person': 'entry', 'employee': 'person', 'contractor': 'person', 'auditor': 'person', 'manager': 'employee', 'clerk': 'employee',
          'trainee': 'employee', 'administrator': 'employee', 'director': 'manager', 'bookkeeper': 'clerk', 'helpdesk-agent': 'clerk',
          'receptionist': 'clerk'}
DEPARTMENTS = {'department': 'entry', 'finance': 'department', 'sales': 'department', 'personnel': 'department', 'legal': 'department',
               'support': 'department', 'reception': 'department', 'payroll': 'finance', 'taxes': 'finance', 'purchasing': 'finance',
               'marketing': 'sales', 'press': 'sales', 'network': 'support', 'wages': 'payroll'}
FOLDERS = {'folder': 'entry', 'shared-folder': 'folder', 'team-folder': 'folder', 'archive': 'folder', 'finance-folder': 'team-folder',
           'personnel-folder': 'team-folder', 'sales-folder': 'team-folder', 'contracts-folder': 'team-folder', 'templates': 'shared-folder',
           'minutes': 'shared-folder', 'wages-folder': 'finance-folder', 'press-folder': 'sales-folder'}
SERVICES = {'service': 'entry', 'mailbox': 'service', 'calendar': 'service', 'website': 'service', 'bank-account': 'service',
            'tax-portal': 'service', 'payroll-system': 'service', 'backup': 'service', 'team-mailbox': 'mailbox', 'web-shop': 'website'}
DEVICES = {'device': 'entry', 'laptop': 'device', 'phone': 'device', 'printer': 'device', 'server': 'device', 'router': 'device',
           'door-lock': 'device', 'vault': 'device'}
GROUPS = [LABELS, PEOPLE, DEPARTMENTS, FOLDERS, SERVICES, DEVICES]
NAMES = [name for group in GROUPS for name in group]

# each role with the group of its successors
ROLES = {'holder': PEOPLE, 'owner': PEOPLE, 'deputy': PEOPLE, 'keeper': PEOPLE, 'belongs-to': DEPARTMENTS, 'kept-in': FOLDERS,
         'backed-up-in': FOLDERS, 'runs-on': DEVICES}
UNDER = [('owner', 'holder'), ('deputy', 'holder'), ('owner', 'keeper'), ('backed-up-in', 'kept-in')]
APART = [('person', 'device'), ('person', 'folder'), ('public', 'confidential')]

def field(tag, body):
    return bytes([tag]) + len(body).to_bytes(2, 'big') + bytes(body)

def inclusion(lower, upper):
    mask = lambda names: sum(1 << NAMES.index(name) for name in set(names)).to_bytes(8, 'big')
    return field(3, mask(lower) + mask(upper))

def leaves(group):
    """The classes of a group that no class is put under."""
    return [name for name in group if name not in group.values()]

def office(start):
    """The fields of the axioms, in an order that the start number gives."""
    chance = random.Random(start)

    def pick(names):
        names = list(names)
        return names[int(chance.random() * len(names))]

    def picks(count, names):
        names, picked = list(names), []
        for _ in range(count):
            picked.append(names.pop(int(chance.random() * len(names))))
        return picked

    number, role = NAMES.index, list(ROLES).index
    things = [name for group in GROUPS[1:] for name in leaves(group)]
    kinds = [name for group in GROUPS[1:] for name in group if group[name] != 'entry']
    labels = leaves(LABELS)
    fields = [inclusion([name], [group[name]]) for group in GROUPS for name in group if group[name]]
    fields += [inclusion(pair, []) for pair in APART]
    # a thing has one label of two
    fields += [inclusion([thing], picks(2, labels)) for thing in picks(6, things)]
    # what is in two or three groups at once has a label
    for count in (2, 2, 2, 3, 3):
        fields.append(inclusion([pick(leaves(group)) for group in picks(count, GROUPS[1:])], [pick(labels)]))
    for name in picks(12, kinds):
        p = pick(ROLES)
        fields.append(field(4, [number(name), role(p), number(pick(ROLES[p]))]))
    for name in picks(5, kinds):
        p = pick(ROLES)
        fields.append(field(6, [number(name), role(p), number(pick(ROLES[p]))]))
    for p in picks(5, ROLES):
        fields.append(field(5, [role(p), number(pick(name for name in ROLES[p] if name in ROLES[p].values())), number(pick(labels))]))
    fields += [field(7, [role(sub), role(sup)]) for sub, sup in UNDER]
    return picks(len(fields), fields)

def sheet(start):
    declared = [field(1, name.encode()) for name in NAMES] + [field(2, name.encode()) for name in ROLES]
    return b''.join(declared + office(start))

if __name__ == '__main__':
    if len(sys.argv) != 2 or not sys.argv[1].isdigit():
        sys.exit(__doc__)
    sys.stdout.buffer.write(sheet(int(sys.argv[1])))
