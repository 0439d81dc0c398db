// Accounts, in C++ without a C++ library. Each line of the input books something: `deposit NAME AMOUNT`, `withdraw NAME
// AMOUNT`, or `interest NAME PERCENT`. What would leave an account below 0 is refused. At the end each balance is printed.
#include <stdio.h>
#include <string.h>

// A list that grows.
template <typename Item> class List {
  public:
    ~List() {
        delete[] items;
    }

    Item &add(const Item &item) {
        if (count == room) {
            room = room == 0 ? 2 : 2 * room;
            Item *more = new Item[room];
            for (unsigned i = 0; i < count; i++) {
                more[i] = items[i];
            }
            delete[] items;
            items = more;
        }
        items[count] = item;
        return items[count++];
    }

    Item *begin() {
        return items;
    }

    Item *end() {
        return items + count;
    }

  private:
    Item *items = nullptr;
    unsigned count = 0, room = 0;
};

struct Account {
    char name[16] = "";
    long balance = 0;
};

// What is booked: the balance after it, below 0 if it is to be refused.
class Booking {
  public:
    virtual ~Booking() {}
    virtual long after(long balance) const = 0;
};

class Deposit : public Booking {
  public:
    explicit Deposit(long amount) : amount(amount) {}

    long after(long balance) const override {
        return balance + amount;
    }

  private:
    long amount;
};

class Withdrawal : public Booking {
  public:
    explicit Withdrawal(long amount) : amount(amount) {}

    long after(long balance) const override {
        return balance - amount;
    }

  private:
    long amount;
};

class Interest : public Booking {
  public:
    explicit Interest(long percent) : percent(percent) {}

    long after(long balance) const override {
        return balance + balance * percent / 100;
    }

  private:
    long percent;
};

Booking *booking_of(const char *word, long number) {
    if (strcmp(word, "deposit") == 0) {
        return new Deposit(number);
    }
    if (strcmp(word, "withdraw") == 0) {
        return new Withdrawal(number);
    }
    return strcmp(word, "interest") == 0 ? new Interest(number) : nullptr;
}

// It is opened before `main`, and closed after it.
class Book {
  public:
    Book() {
        puts("the book is open");
    }

    ~Book() {
        printf("the book is closed after %d bookings\n", booked);
    }

    Account &account(const char *name) {
        for (Account &found : accounts) {
            if (strcmp(found.name, name) == 0) {
                return found;
            }
        }
        Account made;
        strcpy(made.name, name);
        return accounts.add(made);
    }

    bool book(Account &account, const Booking &booking) {
        long after = booking.after(account.balance);
        if (after < 0) {
            return false;
        }
        account.balance = after;
        booked++;
        return true;
    }

    void print() {
        for (const Account &account : accounts) {
            printf("%s has %ld\n", account.name, account.balance);
        }
    }

  private:
    List<Account> accounts;
    int booked = 0;
};

static Book book;

int main() {
    char word[10], name[16];
    long number;
    while (scanf("%9s %15s %ld", word, name, &number) == 3) {
        Booking *booking = booking_of(word, number);
        if (booking == nullptr || !book.book(book.account(name), *booking)) {
            printf("refused: %s %s %ld\n", word, name, number);
        }
        delete booking;
    }
    book.print();
}
