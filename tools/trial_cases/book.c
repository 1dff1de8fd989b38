// An order book: Gate reads orders, Book matches them, Purse keeps who owns what, Tape prints trades.
//
// An order is SIDE OWNER PRICE AMOUNT; side 1 buys, 2 sells, 3 cancels order AMOUNT of OWNER, 0 ends. It has four
// faults: see book.found.
#pragma compartment Main
#pragma import Gate next
#pragma import Gate part
#pragma import Book place
#pragma import Book cancel
#pragma import Book best
#pragma import Purse open
#pragma import Tape total
int next(void);
int part(int which);
int place(int side, int owner, int price, int amount);
int cancel(int owner, int number);
int best(int side);
int total(void);
void open(int owner, int cash, int goods);

int main(void) {
  int side, owner, price, amount, done;
  int i;
  for (i = 0; i < 4; i++) {
    open(i, 1000, 50);
  }
  side = next();
  while (side != 0) {
    owner = part(0);
    price = part(1);
    amount = part(2);
    if (side == 3) {
      done = cancel(owner, amount);
    } else {
      done = place(side, owner, price, amount);
    }
    side = next();
  }
  done = total();
  return done;
}

#pragma compartment Gate
#pragma export next
#pragma export part
#pragma import Env input
int input(void);
struct order {
  int side;
  int parts[3];
  int checked;
};
struct order now;

int next(void) {
  int i;
  now.side = input();
  if (now.side == 0) {
    return 0;
  }
  for (i = 0; i < 3; i++) {
    now.parts[i] = input();
  }
  now.checked = 1;
  return now.side;
}

int part(int which) {
  if (which < 0 || which >= 3) {
    return 0;
  }
  return now.parts[which];
}

#pragma compartment Purse
#pragma export open
#pragma export hold
#pragma export move
struct owner {
  int cash;
  int goods;
};
struct owner owners[4];

void open(int owner, int cash, int goods) {
  struct owner *it;
  if (owner < 0 || owner >= 4) {
    return;
  }
  it = &owners[owner];
  it->cash = cash;
  it->goods = goods;
}

int hold(int owner, int side, int worth) {
  struct owner *it;
  if (owner < 0 || owner >= 4) {
    return 0;
  }
  it = owners + owner;
  if (side == 1) {
    return it->cash >= worth;
  }
  return it->goods >= worth;
}

void move(int from, int to, int price, int amount) {
  owners[from].cash -= price * amount;
  owners[to].cash += price * amount;
  owners[from].goods += amount;
  owners[to].goods -= amount;
}

#pragma compartment Book
#pragma export place
#pragma export cancel
#pragma export best
#pragma import Purse hold
#pragma import Purse move
#pragma import Tape trade
int hold(int owner, int side, int worth);
void move(int from, int to, int price, int amount);
void trade(int price, int amount);

struct entry {
  int number;
  int side;
  int owner;
  int price;
  int amount;
  struct entry *next;
};
struct entry *first;
int numbers;

struct entry *find(int side, int price) {
  struct entry *e;
  struct entry *best;
  best = 0;
  for (e = first; e != 0; e = e->next) {
    if (e->side != side && e->amount > 0) {
      if (side == 1 && e->price <= price && (!best || e->price < best->price)) {
        best = e;
      }
      if (side == 2 && e->price >= price && (!best || e->price > best->price)) {
        best = e;
      }
    }
  }
  return best;
}

void remove(struct entry *gone) {
  struct entry *e;
  if (first == gone) {
    first = gone->next;
    free(gone);
    return;
  }
  for (e = first; e->next != gone; e = e->next) { }
  free(gone);
  e->next = gone->next;
}

int least(int a, int b) {
  if (a < b) {
    return a;
  }
  return b;
}

int place(int side, int owner, int price, int amount) {
  struct entry *other;
  struct entry *made;
  int traded;
  int ok;
  ok = hold(owner, side, price * amount);
  if (!ok) {
    return 0;
  }
  other = find(side, price);
  while (other && amount > 0) {
    traded = least(amount, other->amount);
    if (side == 1) {
      move(owner, other->owner, other->price, traded);
    } else {
      move(other->owner, owner, other->price, traded);
    }
    trade(other->price, traded);
    amount -= traded;
    other->amount -= traded;
    if (other->amount == 0) {
      remove(other);
    }
    other = find(side, price);
  }
  if (amount > 0) {
    made = malloc(sizeof(struct entry));
    if (made == 0) {
      return 0;
    }
    made->number = numbers;
    made->side = side;
    made->owner = owner;
    if (price > 0) {
      made->price = price;
    }
    made->amount = amount;
    made->next = first;
    first = made;
    numbers++;
  }
  return numbers;
}

int cancel(int owner, int number) {
  struct entry *e;
  e = first;
  while (e && e->number != number) {
    e = e->next;
  }
  if (!e || e->owner != owner) {
    return 0;
  }
  remove(e);
  return 1;
}

int best(int side) {
  struct entry *e;
  e = find(3 - side, 0);
  if (!e) {
    return 0;
  }
  return e->price;
}

#pragma compartment Tape
#pragma export trade
#pragma export total
#pragma import Env output
void output(int value);
int *tape;
int used;
int sum;

void trade(int price, int amount) {
  if (tape == 0) {
    tape = malloc(4 * sizeof(int));
  }
  if (tape == 0) {
    return;
  }
  tape[used] = price;
  used++;
  sum += price * amount;
  output(price * 1000 + amount);
}

int total(void) {
  return sum;
}
