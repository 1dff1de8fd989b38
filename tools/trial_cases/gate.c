// A gateway: messages come in as numbers, Main decides, Keys holds the secrets, Log keeps what was done.
//
// A message is KIND LENGTH FIELD*LENGTH CHECK. Kinds: 1 login, 2 set a key, 3 drop a key, 4 ask for a key's tag,
// 5 show the log; 0 ends. It has four faults: see gate.found.
#pragma compartment Main
#pragma import Parser next_message
#pragma import Parser field
#pragma import Parser field_count
#pragma import Parser is_sound
#pragma import Keys login
#pragma import Keys set_key
#pragma import Keys drop_key
#pragma import Keys tag
#pragma import Log note
#pragma import Log show
int next_message(void);
int field(int index);
int field_count(void);
int is_sound(void);
int login(int user, int word);
int set_key(int user, int slot, int word);
int drop_key(int user, int slot);
int tag(int slot, int nonce);
void note(int what, int who, int value);
int show(void);

int user;
int refused;

void answer_login(void) {
  int who;
  int word;
  int granted;
  who = field(0);
  word = field(1);
  granted = login(who, word);
  if (granted) {
    user = who;
  } else {
    refused = refused + 1;
  }
  note(1, who, granted);
}

void answer_set(void) {
  int slot;
  int word;
  int done;
  slot = field(0);
  word = field(1);
  done = set_key(user, slot, word);
  note(2, user, done);
}

void answer_drop(void) {
  int slot;
  int done;
  slot = field(0);
  done = drop_key(user, slot);
  note(3, user, done);
}

void answer_tag(void) {
  int slot;
  int nonce;
  int value;
  slot = field(0);
  nonce = field(1);
  value = tag(slot, nonce);
  note(4, user, value);
}

void answer(int kind) {
  int shown;
  if (kind == 1) {
    answer_login();
  } else if (kind == 2) {
    answer_set();
  } else if (kind == 3) {
    answer_drop();
  } else if (kind == 4) {
    answer_tag();
  } else if (kind == 5) {
    shown = show();
    note(5, user, shown);
  } else {
    note(9, user, 0);
  }
}

int main(void) {
  int kind;
  int sound;
  int count;
  count = 0;
  kind = next_message();
  while (kind != 0 && refused < 3) {
    sound = is_sound();
    if (sound) {
      answer(kind);
    } else {
      note(8, user, 0);
    }
    count = count + 1;
    kind = next_message();
  }
  show();
  return refused;
}

#pragma compartment Parser
#pragma export next_message
#pragma export field
#pragma export field_count
#pragma export is_sound
#pragma import Env input
int input(void);

struct message {
  int kind;
  int length;
  int sum;
  int *fields;
};
struct message now;

int next_message(void) {
  int i;
  int length;
  int declared;
  free(now.fields);
  now.fields = 0;
  now.kind = input();
  if (now.kind == 0) {
    return 0;
  }
  declared = input();
  length = declared;
  if (length < 0) {
    length = 0;
  }
  if (length > 16) {
    length = 16;
  }
  now.length = length;
  now.fields = malloc(length * sizeof(int));
  for (i = 0; i < declared; i++) {
    now.fields[i] = input();
  }
  now.sum = input();
  return now.kind;
}

int field_count(void) {
  return now.length;
}

int field(int index) {
  if (index < 0 || index >= now.length) {
    return 0;
  }
  return now.fields[index];
}

// The check is the negated sum of absolute values.
int is_sound(void) {
  int i;
  int sum;
  int value;
  sum = 0;
  for (i = 0; i < now.length; i++) {
    value = now.fields[i];
    if (value < 0) {
      value = -value;
    }
    sum = (sum + value) & 65535;
  }
  return sum == now.sum;
}

#pragma compartment Keys
#pragma export login
#pragma export set_key
#pragma export drop_key
#pragma export tag

struct key {
  int owner;
  int word;
  int uses;
};
struct key *slots[8];
int words[4] = {7341, 99, 512, 4};

int login(int user, int word) {
  int ok;
  if (user >= 0 && user < 4) {
    if (words[user] == word) {
      ok = 1;
    }
  } else {
    ok = 0;
  }
  return ok;
}

int set_key(int user, int slot, int word) {
  struct key *made;
  if (slot < 0 || slot > 7) {
    return 0;
  }
  made = slots[slot];
  if (made == 0) {
    made = malloc(sizeof(struct key));
    if (made == 0) {
      return 0;
    }
    made->owner = user;
    made->uses = 0;
    slots[slot] = made;
  }
  if (made->owner != user) {
    return 0;
  }
  made->word = word;
  return 1;
}

int drop_key(int user, int slot) {
  struct key *found;
  if (slot < 0 || slot > 7) {
    return 0;
  }
  found = slots[slot];
  if (found == 0 || found->owner != user) {
    return 0;
  }
  free(found);
  return 1;
}

int tag(int slot, int nonce) {
  struct key *found;
  unsigned int word;
  if (slot < 0 || slot > 7) {
    return 0;
  }
  found = slots[slot];
  if (found == 0) {
    return 0;
  }
  found->uses = found->uses + 1;
  word = found->word;
  return (word * 31u + nonce * 17u + found->uses) % 1000u;
}

#pragma compartment Log
#pragma export note
#pragma export show
#pragma import Env output
void output(int value);

struct entry {
  int what;
  int who;
  int value;
};
struct entry ring[32];
int first;
int count;

void note(int what, int who, int value) {
  int at;
  at = (first + count) % 32;
  ring[at].what = what;
  ring[at].who = who;
  ring[at].value = value;
  if (count < 32) {
    count = count + 1;
  } else {
    first = (first + 1) % 32;
  }
}

int show(void) {
  int i;
  int at;
  int shown;
  shown = count;
  for (i = 0; i < shown; i++) {
    at = (first + i) % 32;
    output(ring[at].what * 10000 + ring[at].who * 1000 + ring[at].value);
  }
  count = 0;
  return shown;
}
