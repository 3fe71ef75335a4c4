// As crates/capnp_classic/src/eval.rt.
#pragma once
#include "eval.capnp.h"
#include "random.h"

struct Eval {
    using Request = Expression;
    using Response = EvaluationResult;

    uint64_t request(Random &random, Expression::Builder root) { return uint32_t(fill(random, 8, root)); }

    void respond(Expression::Reader request, EvaluationResult::Builder response) { response.setValue(valueOf(request)); }

    uint64_t said(EvaluationResult::Reader response) { return uint32_t(response.getValue()); }

  private:
    static int32_t fill(Random &random, uint32_t nesting, Expression::Builder made) {
        auto operation = static_cast<Operation>(random.below(5));
        made.setOp(operation);
        int32_t left, right;
        if (random.below(8) < nesting) {
            left = fill(random, nesting - 1, made.getLeft().initExpression());
        } else {
            left = 1 + random.below(128);
            made.getLeft().setValue(left);
        }
        if (random.below(8) < nesting) {
            right = fill(random, nesting - 1, made.getRight().initExpression());
        } else {
            right = 1 + random.below(128);
            made.getRight().setValue(right);
        }
        return apply(operation, left, right);
    }

    static int32_t valueOf(Expression::Reader read) {
        auto left = read.getLeft();
        int32_t first = left.isValue() ? left.getValue() : valueOf(left.getExpression());
        auto right = read.getRight();
        int32_t second = right.isValue() ? right.getValue() : valueOf(right.getExpression());
        return apply(read.getOp(), first, second);
    }

    static int32_t apply(Operation operation, int32_t left, int32_t right) {
        bool divides = right != 0 && !(left == INT32_MIN && right == -1);
        switch (operation) {
        case Operation::ADD:
            return uint32_t(left) + uint32_t(right);
        case Operation::SUBTRACT:
            return uint32_t(left) - uint32_t(right);
        case Operation::MULTIPLY:
            return uint32_t(left) * uint32_t(right);
        case Operation::DIVIDE:
            return divides ? left / right : INT32_MAX;
        case Operation::MODULUS:
            return divides ? left % right : INT32_MAX;
        }
        return 0;
    }
};
